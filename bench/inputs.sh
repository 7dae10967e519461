#!/bin/sh
# Whether members end as docs/NODE.md says on inputs made at random, cut anywhere, over real files.
# usage: bench/inputs.sh [COUNT [PROGRAM [SEED]]]
# Without COUNT it is 1000. Without PROGRAM it is the proved program that ./prove makes. Without SEED it is 1.
# An input has empty frames, asks, the messages that order them in a group of one, and bytes that are no message. Half of them are cut
# somewhere; some have a length above the limit. Three inputs in turn are read by one member over one directory, each in a life of its own.
# Status and line are compared with those of a reader of frames in this script. The trail's arrivals are compared with the frames read, and
# its Sends with the frames written. After status 0 each is the whole, and `smart audit` finds the trail coherent, but for votes that this
# script made up and the member has not sent in this life. After status 3 each is a front.
# The status is 0 if no input ends otherwise.
top=$(CDPATH= cd -- "$(dirname -- "$0")/.." && pwd) || exit 1
count=${1:-1000}
program=${2:-$top/out/smart}
case $count in
'' | 0* | *[!0-9]*)
    echo "usage: bench/inputs.sh [COUNT [PROGRAM [SEED]]]" >&2
    exit 2
    ;;
esac
if [ ! -x "$program" ]; then
    echo "there is no program at $program: ./prove makes one" >&2
    exit 1
fi
work=$(mktemp -d) || exit 1
trap 'rm -rf "$work"' EXIT
python3 - "$count" "$program" "$work" "${3:-1}" <<'END'
import collections, hashlib, hmac, os, random, struct, subprocess, sys, time

count, program, work, seed = int(sys.argv[1]), sys.argv[2], sys.argv[3], int(sys.argv[4])
chance = random.Random(seed)
SECRET, LIMIT = b"smart", 1 << 20


def signed(kind, number, statement):
    key = hmac.new(SECRET, struct.pack(">BH", kind, number), hashlib.sha256).digest()
    made = hmac.new(key, statement, hashlib.sha256).digest()
    return struct.pack(">BHI", kind, number, len(statement)) + statement + struct.pack(">H", len(made)) + made


def ordered(place, client, seq):
    """The messages by which a lone member orders a request at a place of view 0 and regency 0: ASK, PROPOSE, WRITE, ACCEPT."""
    op = chance.choice([b"put k v", b"get k", b"del k", b"what"])
    asked = signed(2, client, struct.pack(">BHQQI", 9, client, seq, 0, len(op)) + op)
    batch = struct.pack(">H", 1) + asked
    named = struct.pack(">IQI", 0, place, 0) + hashlib.sha256(batch).digest()
    votes = [signed(1, 1, bytes([kind]) + named) for kind in (1, 2, 3)]
    return [b"\x01" + asked, b"\x02" + votes[0] + batch, b"\x03" + votes[1], b"\x03" + votes[2]]


def some_input():
    """The bytes of an input."""
    payloads, place = [], 1
    for _ in range(chance.randrange(6)):
        what = chance.randrange(4)
        if what == 0:
            payloads.append(b"")
        elif what == 1:
            payloads.append(chance.randbytes(chance.randrange(1, 60)))
        else:
            order = ordered(place, 1, place)
            payloads += order if what == 2 else order[: chance.randrange(1, 4)]
            place += 1
    data = b"".join(struct.pack(">I", len(p)) + p for p in payloads)
    if chance.randrange(10) == 0:
        at = chance.randrange(len(data) + 1)
        data = data[:at] + struct.pack(">I", chance.randrange(LIMIT + 1, 1 << 32)) + data[at:]
    return data[: chance.randrange(len(data) + 1)] if chance.randrange(2) else data


def frames_of(data):
    """The whole frames of bytes, and whether more than these is there."""
    at, frames = 0, []
    while at + 4 <= len(data):
        size = struct.unpack_from(">I", data, at)[0]
        if size > LIMIT + 3 or at + 4 + size > len(data):
            break
        frames.append(data[at + 4 : at + 4 + size])
        at += 4 + size
    return frames, at < len(data)


def told(data):
    """The status and the line of a member that reads bytes, and the frames that it can read."""
    at, frames = 0, []
    while at < len(data):
        size = struct.unpack_from(">I", data, at)[0] if at + 4 <= len(data) else None
        if size is None or size > LIMIT or at + 4 + size > len(data):
            return 3, b"smart: line %d: Form\n" % (len(frames) + 1), frames
        frames.append(data[at + 4 : at + 4 + size])
        at += 4 + size
    return 0, b"", frames


def parts_of(text):
    at = 0
    while at + 4 <= len(text):
        size = struct.unpack_from(">I", text, at)[0]
        yield text[at + 4 : at + 4 + size]
        at += 4 + size


def fault(folder, group, data):
    """What is wrong with the run of a member over an input, and its status."""
    words = [program, "node", "--id", "1", "--dir", folder, "--secret", SECRET.hex(), "--group", group, "--period", "4"]
    run = subprocess.run(words, input=data, capture_output=True, timeout=60)
    status, line, frames = told(data)
    if (run.returncode, run.stderr) != (status, line):
        return "status %d, %r, wanted %d, %r" % (run.returncode, run.stderr, status, line), status
    written, more = frames_of(run.stdout)
    trail = open(os.path.join(folder, "n1.trail"), "rb").read()
    parts = list(parts_of(trail))
    entries = struct.unpack(">Q", parts[0][-8:])[0]
    events = parts[1 + entries :]
    came = [e[1:] for e in events if e[:1] == b"\x01"]
    sent = [e[1:] for e in events if e[:1] == b"\x05"]
    filled = [f for f in frames if f]
    if came != filled[: len(came)] or written != sent[: len(written)]:
        return "the trail tells of other frames", status
    if status == 0:
        if more or came != filled or written != sent or events[-1:] != [b"\x08"]:
            return "the trail or the output is not whole", status
        audit = subprocess.run([program, "audit"], input=trail, capture_output=True, timeout=60)
        made_up = any(f[0] in (2, 3) for f in filled) and audit.returncode == 9 and audit.stdout.startswith(b"differs 2 n1 ")
        if (audit.returncode, audit.stdout) != (0, b"coherent\n") and not made_up:
            return "the audit tells %r" % audit.stdout, status
    return None, status


began, ends, replies = time.monotonic(), collections.Counter(), 0
for number in range(count):
    if number % 3 == 0:
        folder = os.path.join(work, str(number))
        os.mkdir(folder)
        group = chance.choice(["1,0", "1,0", "4,1"])
    data = some_input()
    wrong, status = fault(folder, group, data)
    if wrong:
        sys.exit("input %d of seed %d, of %d bytes, in life %d over its directory: %s" % (number, seed, len(data), number % 3 + 1, wrong))
    ends[status] += 1
print("%d inputs ended as they should within %d seconds: %d with status 0, %d with 3" % (count, time.monotonic() - began, ends[0], ends[3]))
END
