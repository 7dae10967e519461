#!/bin/sh
# What a load costs, and what an ask costs beside its hashes.
# usage: bench/load.sh [N [PROGRAM]]
# Without N it is 10000, and it is at most 10000. Without PROGRAM it is the proved program that ./prove makes.
# - `load N` and `load 10N`, in turn, five times each: seconds of an ask. The fastest of each count, and the second may be 1.3 of the first.
# - The peaks of memory of loads of 10N, of a quarter of that and of a sixteenth, at which lists that double their room have as much of
#   it to spare: the bytes that an ask adds, between the least two and between the greatest two. One may be 1.15 of the other. Memory is
#   measured where there is a GNU time.
# - `world` over asks of 8 clients and of 1,024, with a flow after each round: seconds of an ask, in turn, the fastest of five. The
#   second may be 1.1 of the first.
# - The same over 400 asks of 8 clients under callgrind, where there is valgrind: compressions of SHA-256 and instructions of an ask, and the
#   parts of these. At most 110 compressions.
# - The seconds of an ask over the hashing floor. At most 3. The price of a compression is timed in the same run, by the bench `digest`.
#   The floor is 79.25 compressions an ask, and follows from the script alone. What the program computes besides does not raise it.
#   - Tags: 292 for 8 asks, at two compressions each. That makes 73 an ask.
#   - Digests: 8 asks are ordered as a batch of 1 request and one of 7. Their texts have at most 70 and 478 bytes: 2 blocks and 8.
#     Each of the 4 members, and the world's ledger, needs each of these digests once. That makes 6.25 an ask.
#   - The program makes fewer: a ring knows tags that it has checked, and the ledger reads statements only where a script injects some.
#     Held to what the program makes, the ratio is higher.
# The status is 1 where one of these is past its bound.
top=$(CDPATH= cd -- "$(dirname -- "$0")/.." && pwd) || exit 1
n=${1:-10000}
program=${2:-$top/out/smart}
case $n in
'' | 0* | *[!0-9]*)
    echo "usage: bench/load.sh [N [PROGRAM]]" >&2
    exit 2
    ;;
esac
if [ "$n" -gt 10000 ]; then
    echo "a load has at most 100000 asks, and this plays one of 10N" >&2
    exit 2
fi
if [ ! -x "$program" ]; then
    echo "there is no program at $program: ./prove makes one" >&2
    exit 1
fi
if [ $# -lt 2 ] && ! "$top/prove" stands; then
    echo "(the sources have changed since $program was proved)" >&2
fi
(cd "$top/crates/benches" && rt run -- "digest 1") >/dev/null 2>&1 || exit 1
exec python3 - "$n" "$program" "$top/crates/benches/out/benches" <<'PYTHON'
"""Times loads and asks, and holds what they cost to its bounds."""
import os, re, resource, shutil, subprocess, sys, tempfile, time

n, program, digester = int(sys.argv[1]), sys.argv[2], sys.argv[3]
past = []


def script(asks, clients):
    """The script of bench/asks.sh: so many asks of so many clients, with a flow after each round of them."""
    lines = ["group 4 1", "app count"]
    for i in range(1, asks + 1):
        lines.append("ask %d %d" % ((i - 1) % clients + 1, i))
        if i % clients == 0 or i == asks:
            lines.append("flow")
    return ("\n".join(lines) + "\n").encode()


def seconds(words, text=b""):
    """The processor seconds of one run."""
    before = resource.getrusage(resource.RUSAGE_CHILDREN)
    run = subprocess.run(words, input=text, stdout=subprocess.DEVNULL, check=True)
    after = resource.getrusage(resource.RUSAGE_CHILDREN)
    assert run.returncode == 0
    return after.ru_utime + after.ru_stime - before.ru_utime - before.ru_stime


def fastest(runs):
    """The fastest of five of each of some runs, made in turn."""
    times = [[] for _ in runs]
    for _ in range(5):
        for found, (words, text) in zip(times, runs):
            found.append(seconds(words, text))
    return [min(found) for found in times]


def hold(what, ratio, bound):
    print("%s: %.2f, at most %.2f" % (what, ratio, bound))
    if ratio > bound:
        past.append(what)


def load(asks):
    return [program, "load", str(asks)]


few, many = fastest([(load(n), b""), (load(10 * n), b"")])
print("load %d: %.2f s, %.6f s an ask; load %d: %.2f s, %.6f s an ask" % (n, few, few / n, 10 * n, many, many / (10 * n)))
hold("an ask of the greater load to one of the smaller", many / (10 * n) / (few / n), 1.3)

if os.access("/usr/bin/time", os.X_OK):
    peaks, loads = [], [10 * n // 16, 10 * n // 4, 10 * n]
    for asks in loads:
        said = subprocess.run(["/usr/bin/time", "-f", "%M", *load(asks)], capture_output=True, text=True, check=True).stderr
        peaks.append(1024 * int(said.split()[-1]))
    first, second = [(peaks[i + 1] - peaks[i]) / (loads[i + 1] - loads[i]) for i in range(2)]
    print("peaks %s bytes: an ask adds %.0f bytes, then %.0f" % (" ".join(map(str, peaks)), first, second))
    hold("bytes that an ask adds, the more to the fewer", max(first, second) / min(first, second), 1.15)

asks = 4096
eight, thousand = fastest([([program, "world"], script(asks, 8)), ([program, "world"], script(asks, 1024))])
print("%d asks: %.6f s an ask of 8 clients, %.6f of 1,024" % (asks, eight / asks, thousand / asks))
hold("an ask of 1,024 clients to one of 8", thousand / eight, 1.1)

if shutil.which("valgrind"):
    asks = 400
    with tempfile.TemporaryDirectory() as folder:
        out = os.path.join(folder, "out")
        words = ["valgrind", "--tool=callgrind", "--callgrind-out-file=" + out, program, "world"]
        subprocess.run(words, input=script(asks, 8), stdout=subprocess.DEVNULL, stderr=subprocess.DEVNULL, check=True)
        names, callee, calls = {}, None, 0
        with open(out) as file:
            for line in file:
                found = re.match(r"c?fn=\((\d+)\)(?: (.*))?", line)
                if found:
                    if found[2]:
                        names[found[1]] = found[2]
                    if line.startswith("c"):
                        callee = names[found[1]]
                elif line.startswith("calls=") and callee and callee.startswith("sha2::") and callee.endswith("::compress"):
                    calls += int(line[6:].split()[0])
        counted = calls / asks
        print("%d compressions for %d asks" % (calls, asks))
        hold("compressions of an ask", counted, 110)
        said = subprocess.run(["callgrind_annotate", out], capture_output=True, text=True).stdout.split("\n")
        rows = [line for line in said if re.match(r"\s*[\d,]+ \(", line)]
        print("instructions:\n" + "\n".join(rows[:16]))

pieces = 20000
one = min(seconds([digester, "digest %d" % pieces]) for _ in range(5)) / (17 * pieces)
least = 2 * 292 / 8 + 5 * (2 + 8) / 8
floor = least * one
print("a compression takes %.1f ns; the floor of an ask is %.2f of them, %.6f s" % (one * 1e9, least, floor))
hold("an ask of 8 clients to its hashing floor", eight / 4096 / floor, 3)
sys.exit(1 if past else 0)
PYTHON
