#!/bin/sh
# What a member of a group of one does in a second over frames, beside the same asks in a world.
# usage: bench/node.sh [ASKS [PROGRAM [FOLDER]]]
# Without ASKS it is 2000. Without PROGRAM it is the proved program that ./prove makes. Without FOLDER the store is in a new folder below
# /tmp, which is removed again.
# - Asks, frames read and frames written a second by `smart node`: one ask at a time, and each frame to the view goes back to the member.
# - Syncs a second of its log: two for each group of entries. The member takes no checkpoint meanwhile.
# - Asks a second of `smart world` for the same puts: no disk, no thread.
# - Syncs a second of a file in the same folder, 8 bytes each.
top=$(CDPATH= cd -- "$(dirname -- "$0")/.." && pwd) || exit 1
asks=${1:-2000}
program=${2:-$top/out/smart}
case $asks in
'' | 0* | *[!0-9]*)
    echo "usage: bench/node.sh [ASKS [PROGRAM [FOLDER]]]" >&2
    exit 2
    ;;
esac
if [ ! -x "$program" ]; then
    echo "there is no program at $program: ./prove makes one" >&2
    exit 1
fi
work=$(mktemp -d ${3:+-p "$3"}) || exit 1
trap 'rm -rf "$work"' EXIT
python3 - "$asks" "$program" "$work" <<'END'
import hashlib, hmac, os, struct, subprocess, sys, time

asks, program, work = int(sys.argv[1]), sys.argv[2], sys.argv[3]
SECRET = b"smart"


def tag(kind, number, statement):
    key = hmac.new(SECRET, struct.pack(">BH", kind, number), hashlib.sha256).digest()
    return hmac.new(key, statement, hashlib.sha256).digest()


def framed(payload):
    return struct.pack(">I", len(payload)) + payload


def ask(client, seq, op):
    statement = struct.pack(">BHQQI", 9, client, seq, 0, len(op)) + op
    made = tag(2, client, statement)
    return b"\x01" + struct.pack(">BHI", 2, client, len(statement)) + statement + struct.pack(">H", len(made)) + made


def groups(path):
    """How many groups of a log count, and how many entries they have."""
    data, at, count, entries = open(path, "rb").read(), 0, 0, 0
    while at + 17 <= len(data) and data[at] == 1:
        length, several = struct.unpack_from(">QQ", data, at + 1)
        at, count, entries = at + 9 + length, count + 1, entries + several
    return count, entries


words = [program, "node", "--id", "1", "--dir", work, "--secret", SECRET.hex(), "--group", "1,0", "--period", "1048576"]
node = subprocess.Popen(words, stdin=subprocess.PIPE, stdout=subprocess.PIPE)
began, read, written, replies = time.monotonic(), 0, 0, 0


def give(message):
    node.stdin.write(framed(message))
    node.stdin.flush()


for seq in range(1, asks + 1):
    give(ask(1, seq, b"put k v"))
    read += 1
    while True:
        head = node.stdout.read(4)
        if len(head) < 4:
            sys.exit("the member has ended by itself, with status %d" % node.wait(timeout=60))
        payload = node.stdout.read(struct.unpack(">I", head)[0])
        written += 1
        if payload[0] == 2:
            # A kept reply may come again, to a request that a tick has passed on.
            if struct.unpack_from(">Q", payload, 28)[0] == seq:
                replies += 1
                break
        else:
            give(payload[3:])
            read += 1
spent = time.monotonic() - began
node.stdin.close()
node.stdout.read()
if node.wait(timeout=60) != 0 or replies != asks:
    sys.exit("the member did not answer each ask, or did not end well")
count, entries = groups(os.path.join(work, "n1.0"))
print(f"node: {asks / spent:.0f} asks a second, {read / spent:.0f} frames in and {written / spent:.0f} out a second")
print(f"node: {2 * count / spent:.0f} syncs a second, {entries / max(count, 1):.1f} entries in a group")

script = "group 1 0\napp kv\n" + "ask 1 put k v\nflow\n" * asks
began = time.monotonic()
subprocess.run([program, "world"], input=script.encode(), stdout=subprocess.DEVNULL, check=True)
print(f"world: {asks / (time.monotonic() - began):.0f} asks a second")

with open(os.path.join(work, "syncs"), "wb", buffering=0) as file:
    began = time.monotonic()
    for i in range(500):
        file.write(b"8 bytes.")
        os.fsync(file.fileno())
    print(f"disk: {500 / (time.monotonic() - began):.0f} syncs a second")
END
