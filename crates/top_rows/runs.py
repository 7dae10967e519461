"""Rows of runs that are no lives of a member: of scripts, loads, audits and groups. How each ends is written by hand, row by row."""
import spelling
from page import remark, row

# ---- what is said


def shown(data):
    """Bytes that print, and line feeds."""
    return data.decode().replace("\n", "\\n") or "-"


def ended(code, said, written, *more):
    return [f"status {code} {shown(said)}", *more, f"written {shown(written)}"]


def run(words, options, code, said, written, *more):
    row(f"run {options}: {words}", *ended(code, said, written, *more))


READ_FAULT = (4, b"smart: read fault\n")
WRITE_FAULT = (5, b"smart: write fault\n")
DISK_FAULT = (6, b"smart: disk fault\n")
WELL = (0, b"")

# ---- scripts, loads and audits

# One ask to a lone member.
LONE = b"group 1 0\napp count\nask 1 5\nflow\n"
HEADER = b"group 1 0 count 1024\n"
ASKED = HEADER + b"sent 1 c1 ask 1 1 0\n"
FLOWED = ASKED + (
    b"sent 2 n1 propose 0 1 0 1\nsent 3 n1 write 0 1 0\nsent 4 n1 accept 0 1 0\ndecided n1 1\ndelivered n1 1 1\n"
    b"sent 5 n1 reply 1 1 1 0\naccepted c1 1 1 0 5\n"
)
# A client to which nothing came.
TRAIL = spelling.spelled([spelling.opening(0, snapshot=b""), spelling.END])
COHERENT = b"coherent\n"
ONE_ASK = b"load 1\nasks 1\naccepted 1\nplaces 1\nsum 91\nmessages 14\n"

SCRIPT, TRAILS = f"input={LONE.hex()} ", f"input={TRAIL.hex()} "

remark("a script over an input and an output that fail: the first read, the second, which finds the end, and the second write")
row("new")
run("world", SCRIPT, *WELL, FLOWED + b"end 4 5\n")
run("world", SCRIPT + "read=1 ", *READ_FAULT, b"")
run("world", SCRIPT + "read=2 ", *READ_FAULT, FLOWED)
run("world", SCRIPT + "write=3 ", *WRITE_FAULT, ASKED)

remark("an audit over an input and an output that fail: it writes one line, and flushes it")
run("audit", TRAILS, *WELL, COHERENT)
run("audit", TRAILS + "read=1 ", *READ_FAULT, b"")
run("audit", TRAILS + "read=2 ", *READ_FAULT, b"")
run("audit", TRAILS + "write=1 ", *WRITE_FAULT, b"")
run("audit", TRAILS + "write=2 ", *WRITE_FAULT, COHERENT)

remark("a load reads nothing, though the first read would fail, and ends by its output: the write of all lines, and the flush")
run("load 1", SCRIPT + "read=1 ", *WELL, ONE_ASK)
run("load 1", SCRIPT + "read=1 write=1 ", *WRITE_FAULT, b"")
run("load 1", SCRIPT + "read=1 write=2 ", *WRITE_FAULT, ONE_ASK)

remark("words that are no command: the line alone, or more than a hundred bytes of help before it. Nothing is read or written")
run("word", SCRIPT, 2, b"smart: bad words\n", b"")
for words in ("", "-h", "--help", "-V", "--version", "help", "help world", "world --help", "load --help"):
    run(words, "", 2, b"..smart: bad words\n", b"")

remark("a line that does not end is refused with the read that passes its limit, the 17th: the 18th would fail")
LONG = b"group 1 0\napp count\n".hex() + "+" + b"a".hex() + "*70000"
run("world", f"read=18 input={LONG} ", 3, b"smart: line 3: Long\n", HEADER)

remark("what is said of an end that no script reaches")
row("said memory", r"status 11 smart: no memory\n")
row("said collision 4", r"status 7 smart: line 4: premise Collision\n")

# ---- groups


def group(members, faulty, period, asks, turns=0, folder="d"):
    return f"group --n {members} --f {faulty} --period {period} --turns {turns} --asks {asks} --dir {folder}"


def told(members, faulty, asks):
    """The lines of a group of which so many requests were answered: the sums of 1, 2 and so on."""
    replies = [f"reply {ask} {ask * (ask + 1) // 2}\n" for ask in range(1, asks + 1)]
    return f"group {members} {faulty}\n{''.join(replies)}".encode()


ONE, FOUR = group(1, 0, 1, 1), group(4, 1, 8, 1)
# Another period, whose group refuses the stores of that one.
OTHER = group(1, 0, 2, 1)
BEGUN, REPLIED = told(1, 0, 0), told(1, 0, 1)
ALL = REPLIED + COHERENT
STORED = (3, b"smart: line 1: Store\n", b"")
AGAIN = (*WELL, ALL)
TRAIL_FAILED = "a trail failed"

remark(
    "what fails in a group of one, and what a group of another period finds behind it: whether all was put back, and the store is there. "
    "A line is written and then flushed: the third call of the output is the second write"
)
for call, end, behind in (
    (1, (*WRITE_FAULT, b""), AGAIN),
    (2, (*WRITE_FAULT, BEGUN), AGAIN),
    (3, (*WRITE_FAULT, BEGUN), STORED),
    (4, (*WRITE_FAULT, REPLIED), STORED),
    (5, (*WRITE_FAULT, REPLIED), STORED),
    (6, (*WRITE_FAULT, ALL), STORED),
    (7, (*WELL, ALL), STORED),
):
    row("new")
    run(ONE, f"write={call} ", *end)
    run(OTHER, "", *behind)

remark("the room of trails refuses, or a trail fails. A part of it takes two calls, and of a member's first two events one tells that it has a store")
for fails, written, behind in (("refusals=1 ", b"", AGAIN), ("trail=1 ", b"", AGAIN), ("trail=7 ", BEGUN, STORED)):
    row("new")
    run(ONE, fails, *WRITE_FAULT, written, TRAIL_FAILED)
    run(OTHER, "", *behind)

remark("a device of the member is taken, or its first one fails at a call")
for lacks, written, behind in (
    ("taken 3 1 d", b"", (*DISK_FAULT, b"")),
    ("device 0 1 1 d", b"", AGAIN),
    ("device 0 8 1 d", BEGUN, STORED),
):
    row("new")
    row(lacks)
    run(ONE, "", *DISK_FAULT, written)
    run(OTHER, "", *behind)

remark("a device of the last member of four fails")
row("new")
row("device 0 2 4 d")
run(FOUR, "", *DISK_FAULT, told(4, 1, 0))

remark("the store of member 2 is one of another group. That of member 1, which is opened before it, is there behind the refusal")
row("new")
run(FOUR, "", *WELL, told(4, 1, 1) + COHERENT)
run(group(1, 0, 1, 1, folder="e"), "", *WELL, ALL)
row("move 1 e to 2 d")
run(FOUR, "", *STORED)
run(ONE, "", *STORED)

remark(
    "an audit finds the kept trails of a group coherent. Its members go on from their stores, and answer a first request that was the last one, "
    "and no other that they know. A group of another period refuses the stores, and leaves them"
)
for members, faulty, period, asks in ((1, 0, 1, 1), (1, 0, 1, 3), (4, 1, 8, 3)):
    words, other = group(members, faulty, period, asks), group(members, faulty, period + 1, asks)
    whole = told(members, faulty, asks) + COHERENT
    later = (*WELL, whole) if asks == 1 else (10, b"smart: gave up\n", told(members, faulty, 0))
    row("new")
    run(words, "", *WELL, whole)
    row(
        f"run kept={members},d : audit",
        *[f"trail {number} has its end: true" for number in range(members + 1)],
        *ended(*WELL, COHERENT),
    )
    run(words, "", *later)
    run(other if asks == 3 else OTHER, "", *STORED)
    run(words, "", *later)

# ---- groups whose loops wait for each other. Their clients ask once: without ticks a leader that has not yet delivered the first
# request does not keep a second one.

THREADS = group(4, 1, 8, 1, 1000000000)


def gated(words, gate, written, *more):
    row(f"run {gate} : {words}", *ended(*WELL, written), "the gate gave up: false", *more)


remark("a batch is delivered while its log is written: the last member writes only behind its delivery, and the others wait for it")
row("new")
gated(THREADS, "write-waits", told(4, 1, 1) + COHERENT)

remark("all members go on beside each other: none is let go on behind the delivery of place 1 before all are there and about to write")
row("new")
gated(THREADS, "all-go-on=1,1", told(4, 1, 1) + COHERENT, "all members were about to write: true")

remark("by turns no member waits behind a delivery. Each writes a decision of place 2 or of a later one")
row("new")
gated(group(4, 1, 8, 3), "all-go-on=0,2", told(4, 1, 3) + COHERENT, "all members were about to write: true")
