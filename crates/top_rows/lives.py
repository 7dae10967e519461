"""Rows of lives of a member. Frames, logs and slots are spelled here, by what docs/FORMATS.md says. How a life ends is written by
hand, row by row.
"""
import spelling
from page import remark, row
from spelling import number, several, text

# ---- what comes in and goes out

# Requests of client 1 to a lone member, and what it sends of each, which comes back to it.
PUT, AGAIN, THIRD, FOURTH, FIFTH, SIXTH = [
    several([spelling.request(seq, 0, b"put " + keys)]) for seq, keys in enumerate((b"a b", b"c d", b"e f", b"g h", b"i j", b"k l"), 1)
]


def asked(batch):
    return number(1, 1) + batch[2:]


def votes(batch, place):
    return [spelling.propose(1, batch, place), spelling.write(1, batch, place), spelling.accept(1, batch, place)]


def framed(*messages):
    return b"".join(text(message) for message in messages).hex()


def ordered(batch, place):
    return [asked(batch), *votes(batch, place)]


def to_view(message):
    return number(1, 3) + number(2, 0) + message


def to_member(who, message):
    return number(1, 1) + number(2, who) + message


def written(batch, place, seq=1):
    """What leaves of one request: to the view, and then to client 1."""
    return [to_view(vote) for vote in votes(batch, place)] + replied(seq)


def replied(seq=1):
    return [number(1, 2) + number(2, 1) + spelling.reply(b"new", 1, seq)]


ONE = framed(*ordered(PUT, 1))
TWO = framed(*ordered(PUT, 1), *ordered(AGAIN, 2))
ASK = framed(asked(PUT))

# ---- what stays


def keys_of(pairs):
    return several([text(key) + text(value) for key, value in pairs])


def replica_at(place, view=spelling.VIEW):
    """The replica of keys and values after so many of these requests."""
    line = number(2, 1) + number(8, place) + number(8, place) + number(2, 0) + number(4, 0) + text(b"new")
    pairs = ((b"a", b"b"), (b"c", b"d"), (b"e", b"f"), (b"g", b"h"), (b"i", b"j"), (b"k", b"l"))
    return spelling.replica(view, place, [line], keys_of(pairs[:place]))


AT_TWO, AT_FOUR, AT_SIX = [replica_at(place) for place in (2, 4, 6)]


def asks_state(place, fetch=0):
    """A member asks for state: all at a tick, or the seeder of its plan."""
    return number(1, 10) + number(2, 1) + number(8, place) + number(8, fetch)


def mark(place, snapshot, who=1):
    return number(1, 9) + spelling.member(who, number(1, 7) + number(8, place) + spelling.digest(snapshot))


def group(*entries):
    """A group that counts, and the closed gate after it."""
    content = number(8, len(entries)) + b"".join(text(entry) for entry in entries)
    return number(1, 1) + number(8, len(content)) + content + number(1, 0)


# ---- the rows

def ended(code, said="", delivered=0, gate=None):
    lines = [f"status {code} {said}", f"delivered {delivered}"]
    return lines if gate is None else lines + [f"the gate gave up: {gate}"]


def whole(*frames, delivered=0, gate=None, ticks=0, before=None, trail="coherent"):
    """A life that has done all. `before` is said where the gate holds the member behind a delivery."""
    told = [f"ticks {ticks}"] if ticks else []
    if before is not None:
        told.append(f"messages before the first tick {before}")
    return ended(0, "", delivered, gate) + [f"frame {frame.hex()}" for frame in frames] + told + [f"trail {trail}"]


def restored(generation, entries, snapshot):
    return f"generation {generation}, {entries} entries, snapshot {snapshot.hex()}"


def words(period, group="1,0"):
    return f": node --id 1 --dir . --secret 776f726c64 --group {group} --period {period}"


WRITE_FAULT, DISK_FAULT = (5, "smart: write fault"), (6, "smart: disk fault")

remark("a member without input opens its book, and restores that")
row("new")
row("memory ", *whole())
row("memory ", *whole())
row("restored memory", "no checkpoint, 1 entries")

remark("frames without meaning leave nothing")
for frames in ("00000000", "0000000000000003616263"):
    row("new")
    row(f"memory input={frames}", *whole())

remark("a member writes before its input ends: each message comes in once it has left")
row("new")
STEPS = " ".join(f"input={framed(message)} written={count}" for count, message in enumerate(ordered(PUT, 1), 1))
row(f"memory {STEPS}", *whole(*written(PUT, 1), delivered=1))

remark("a tick comes a second after the one before, and no other one")
LETTERS = framed(b"a", b"b", b"c", b"d")
row("new")
row(f"memory input={LETTERS} time=999 input={LETTERS}", *whole())
row("new")
row(f"memory time=999 input={LETTERS} time=1 input={LETTERS} written=1", *whole(to_view(asks_state(0)), ticks=1))
row("new")
row(f"memory time=1000 time=999 time=1 time=5000 input={LETTERS}", *whole(to_view(asks_state(0)), ticks=3))

remark("a tick that is due comes before messages that wait: four came up to the delivery of place 1, and four wait behind them")
STEPS = f"stay=1 input={ONE} input={LETTERS} delivered=1 later=1000 free"
row("new")
row(f"memory {STEPS}", *whole(*written(PUT, 1), to_view(asks_state(1)), delivered=1, gate="false", ticks=1, before=4))

remark("a member of four whose request waits: it asks for state, passes the request on, and wishes another leader, a tick each")
row("new")
WISH = number(1, 4) + spelling.member(1, number(1, 4) + number(4, 0) + number(4, 1))
LEFT = [to_view(spelling.propose(1, PUT)), to_view(asks_state(0)), to_member(1, asked(PUT)), to_view(WISH)]
row(f"memory input={ASK} written=1 time=1000 written=2 time=1000 written=3 time=1000 written=4 {words(8, '4,1')}", *whole(*LEFT, ticks=3))

remark("what was played is restored, and answered again")
row("new")
row(f"memory input={ONE}", *whole(*written(PUT, 1), delivered=1))
row(f"memory input={ASK}", *whole(*replied()))
row("restored memory", "no checkpoint, 4 entries")

remark("a frame that is none is told by its number")
for frames, line in (("00", 1), ("0000000261", 1), ("0000000000100001", 2)):
    row("new")
    row(f"memory input={frames}", *ended(3, f"smart: line {line}: Form"))

remark("a store of another member, period or group is told, and stays")
row("new")
row("memory ", *whole())
for others in ("--id 1 --group 1,0 --period 8", "--id 1 --group 4,1"):
    row(f"memory : node --dir . --secret 776f726c64 {others}", *ended(3, "smart: line 1: Store"))
row("memory ", *whole())

remark("what fails around a member is told: the input, the output, the room of trails, a trail")
row("new")
row("memory read=1", *ended(4, "smart: read fault"))
row("new")
row(f"memory write=1 input={ASK}", *ended(*WRITE_FAULT))
for fails in ("refusals=1", "trail=1", "trail=2", "trail=3"):
    row("new")
    row(f"memory {fails}", *ended(*WRITE_FAULT))

remark("a read fails behind frames, once the first of them was delivered: the lowest status")
row("new")
row(f"memory read=2 input={ONE} delivered=1", *ended(4, "smart: read fault", 1))

remark("input and output fail in one life: the lowest status")
row("new")
row(f"memory read=2 write=1 input={ASK} failed", *ended(4, "smart: read fault"))

remark("the input ends within a frame, and the output fails: the lowest status")
row("new")
row(f"memory write=1 input={ASK}00 failed", *ended(3, "smart: line 2: Form"))

remark("a device fails in the third life, which decides, alone and with the output or the input: the lowest status")
START = f"input={framed(*ordered(PUT, 1)[:2])} written=2 input={framed(ordered(PUT, 1)[2])} written=3"
LAST = framed(ordered(PUT, 1)[3])
for steps, end in (
    (f"hold input={LAST} delivered=1 writing go stopped", DISK_FAULT),
    (f"hold write=1 time=1000 input={LAST} delivered=1 writing failed go", WRITE_FAULT),
    (f"hold read=2 input={LAST} delivered=1 writing go", (4, "smart: read fault")),
    (f"hold input={LAST}00 delivered=1 writing go", (3, "smart: line 2: Form")),
):
    row("new")
    row("device 0 18")
    row("memory ", *whole())
    row(f"memory {START}", *whole(*map(to_view, votes(PUT, 1))))
    row(f"memory {steps}", *ended(*end, 1, gate="false"))
    row("restored memory", "no checkpoint, 3 entries")

remark("a call of a device fails, or a device is taken")
for device, calls in ((0, (1, 2, 3, 4)), (1, (1,)), (2, (1,)), (3, (1,))):
    for call in calls:
        row("new")
        row(f"device {device} {call}")
        row("memory ", *ended(*DISK_FAULT))
for device in range(4):
    row("new")
    row(f"taken {device}")
    row("memory ", *ended(*DISK_FAULT))

remark("a device fails while a member switches to its first checkpoint: its slot, and the log of that generation")
for device, calls in ((3, (2, 3, 4, 5, 6, 7)), (1, (2, 3, 4))):
    for call in calls:
        row("new")
        row(f"device {device} {call}")
        row(f"memory input={ONE} delivered=1 stopped {words(1)}", *ended(*DISK_FAULT, 1))

remark("the last such call opens the gate of the slot: the next life goes on from the checkpoint, and its switch fails over the other slot")
row("new")
row("device 3 7")
row(f"memory input={TWO} delivered=2 stopped {words(2)}", *ended(*DISK_FAULT, 2))
row("device 2 5")
row(f"memory input={framed(*ordered(THIRD, 3), *ordered(FOURTH, 4))} delivered=4 stopped {words(2)}", *ended(*DISK_FAULT, 4))

remark("no lock of the member is held while its log is written: place 2 is played before place 1 is written")
row("new")
STEPS = f"hold input={ONE} delivered=1 writing input={framed(*ordered(AGAIN, 2))} delivered=2 go"
row(f"memory {STEPS}", *whole(*written(PUT, 1), *written(AGAIN, 2, 2), delivered=2, gate="false"))
row("restored memory", "no checkpoint, 7 entries")

remark("over files: what a member without input leaves")
row("new")
row("files ", *whole())
row(
    "bytes",
    "./n1.0 " + group(spelling.OPENED).hex(), "./n1.1 ", "./n1.2 ", "./n1.3 ",
    "./n1.trail " + spelling.spelled([spelling.opening(1, 0, snapshot=spelling.EMPTY_KV, app=1), spelling.firm(1), spelling.END]).hex(),
)
row(f"files input={ONE}", *whole(*written(PUT, 1), delivered=1))
row(f"files input={ASK}", *whole(*replied()))
row("restored files", "no checkpoint, 4 entries")

remark("over files: a member switches to its checkpoint. A tick and messages come between the hand-over and the switch")
MARK = to_view(mark(2, AT_TWO))
AFTER = written(PUT, 1) + written(AGAIN, 2, 2) + [MARK]
STEPS = f"hold input={TWO} delivered=2 pause=25 time=1000 pause=25 go switched=1"
row("new")
row(f"files {STEPS} {words(2)}", *whole(*AFTER, to_view(asks_state(2)), delivered=2, gate="false", ticks=1))
row("restored files", restored(1, 3, AT_TWO))
row(f"files input={framed(asked(AGAIN))} {words(2)}", *whole(*replied(2)))
row("restored files", restored(1, 3, AT_TWO))

remark("the same, and place 3 is delivered between the hand-over and the switch")
STEPS = f"hold input={TWO} delivered=2 pause=300 input={framed(*ordered(THIRD, 3))} delivered=3 go switched=1"
AFTER += written(THIRD, 3, 3)
row("new")
row(f"files {STEPS} {words(2)}", *whole(*AFTER, delivered=3, gate="false"))
row("restored files", restored(1, 6, AT_TWO))
row(f"files input={framed(asked(THIRD))} {words(2)}", *whole(*replied(3)))
row("restored files", restored(1, 6, AT_TWO))

remark("a member that began from a checkpoint switches to its next one")
LEFT = written(FOURTH, 4, 4) + [to_view(mark(4, AT_FOUR))]
row(f"files input={framed(*ordered(FOURTH, 4))} switched=2 {words(2)}", *whole(*LEFT, delivered=4))
row("restored files", restored(2, 3, AT_FOUR))

remark("a member switches twice in one life, and in the next one over the slot of the first")
STEPS = f"input={TWO} switched=1 input={framed(*ordered(THIRD, 3), *ordered(FOURTH, 4))} switched=2"
row("new")
row(f"files {STEPS} {words(2)}", *whole(*AFTER, *LEFT, delivered=4))
row("restored files", restored(2, 3, AT_FOUR))
LEFT = written(FIFTH, 5, 5) + written(SIXTH, 6, 6) + [to_view(mark(6, AT_SIX))]
row(f"files input={framed(*ordered(FIFTH, 5), *ordered(SIXTH, 6))} switched=3 {words(2)}", *whole(*LEFT, delivered=6))
row("restored files", restored(3, 3, AT_SIX))

remark("a member of four takes over the state of others: it asks, is offered a snapshot, asks for its parts, and switches to it")
OF_FOUR = words(8, "4,1")
DECISION = number(1, 7) + number(8, 3) + THIRD + several([spelling.vote(3, who, THIRD, 3) for who in (2, 3, 4)])


def others(*sent):
    """Trails of members that have sent this, though no replay does."""
    trails = [[spelling.opening_four(who), *map(spelling.to_all, messages), spelling.END] for who, messages in enumerate(sent, 2)]
    return spelling.spelled(sum(trails, [])).hex()


def taking(before, place, first):
    """The input by which member 1 takes over a snapshot, what leaves, and the marks of the others. The first frame has this number."""
    snapshot = replica_at(place, spelling.FOUR)
    marks = [mark(place, snapshot, who) for who in (2, 3)]
    offer = number(1, 11) + number(2, 2) + number(8, place) + number(4, len(snapshot)) + several([marks[0][1:]])
    part = number(1, 12) + number(8, place) + number(4, 0) + number(4, 1) + text(snapshot)
    steps = f"input={framed(*marks)} time=1000 written={first} input={framed(offer)} written={first + 1} input={framed(part)} written={first + 2}"
    return steps, [to_view(asks_state(before)), to_member(2, asks_state(before, place)), to_view(asks_state(place))], marks


def took(*frames, delivered):
    """The first difference is the first Send of member 2, so the trail before has none."""
    return whole(*frames, delivered=delivered, ticks=1, trail="differs 1 n2 1")


STEPS, LEFT, MARKS = taking(0, 2, 1)
ACCEPTS = [spelling.accept(who, THIRD, 3) for who in (2, 3, 4)]
SENT = others([MARKS[0], ACCEPTS[0]], [MARKS[1], ACCEPTS[1]], [ACCEPTS[2]])
row("new")
row(f"files others={SENT} {STEPS} input={framed(DECISION)} written=4 {OF_FOUR}", *took(*LEFT, *replied(3), delivered=3))
row("restored files", restored(1, 3, replica_at(2, spelling.FOUR)))

remark("it does so again in the next life")
STEPS, LEFT, MARKS = taking(3, 6, 2)
SENT = others([MARKS[0]], [MARKS[1]])
row(f"files others={SENT} input={framed(asked(THIRD))} written=1 {STEPS} {OF_FOUR}", *took(*replied(3), *LEFT, delivered=0))
row("restored files", restored(2, 2, replica_at(6, spelling.FOUR)))
row("new")
