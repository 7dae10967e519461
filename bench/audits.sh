#!/bin/sh
# What the audit of a group's run costs: processor seconds for the trails of so many asks, and of twice as many.
# usage: bench/audits.sh [ASKS [PROGRAM [FOLDER]]]
# Without ASKS it is 5000, which is the most. Without PROGRAM it is the proved program that ./prove makes. Without FOLDER all files are in a
# new folder below /tmp, which is removed again. The two audits are made in turn, three times each. The fastest of each is printed, and
# the ratio. The status is 0 if the ratio is at most 2.2.
top=$(CDPATH= cd -- "$(dirname -- "$0")/.." && pwd) || exit 1
asks=${1:-5000}
program=${2:-$top/out/smart}
case $asks in
'' | 0* | *[!0-9]* | ?????*)
    echo "usage: bench/audits.sh [ASKS [PROGRAM [FOLDER]]]" >&2
    exit 2
    ;;
esac
if [ "$asks" -gt 5000 ]; then
    echo "a group has 10,000 asks at most" >&2
    exit 2
fi
if [ ! -x "$program" ]; then
    echo "there is no program at $program: ./prove makes one" >&2
    exit 1
fi
work=$(mktemp -d ${3:+-p "$3"}) || exit 1
trap 'rm -rf "$work"' EXIT
for count in "$asks" "$((2 * asks))"; do
    mkdir "$work/$count" || exit 1
    told=$("$program" group --n 4 --f 1 --period 1048576 --turns 1000000000 --asks "$count" --dir "$work/$count" | tail -n 1)
    if [ "$told" != coherent ]; then
        echo "a group did not answer each of $count asks" >&2
        exit 1
    fi
    cat "$work/$count"/n?.trail >"$work/$count.trails" || exit 1
    rm -r "$work/$count"
done
python3 - "$program" "$work/$asks.trails" "$work/$((2 * asks)).trails" <<'END'
import resource, subprocess, sys

program, paths = sys.argv[1], sys.argv[2:]
LIMIT = 2.2


def audited(path):
    """The processor seconds of one audit of these trails."""
    before = resource.getrusage(resource.RUSAGE_CHILDREN)
    with open(path, "rb") as file:
        run = subprocess.run([program, "audit"], stdin=file, stdout=subprocess.PIPE)
    after = resource.getrusage(resource.RUSAGE_CHILDREN)
    if run.returncode != 0 or run.stdout != b"coherent\n":
        sys.exit("the trails are not coherent")
    return after.ru_utime + after.ru_stime - before.ru_utime - before.ru_stime


rounds = [[audited(path) for path in paths] for _ in range(3)]
one, two = (min(seconds) for seconds in zip(*rounds))
print(f"{one:.2f} s, and {two:.2f} s for twice as many: ratio {two / one:.2f}, at most {LIMIT}")
sys.exit(0 if two / one <= LIMIT else 1)
END
