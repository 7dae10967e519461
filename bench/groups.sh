#!/bin/sh
# How many groups of entries a second a log takes, over memory and over a real file with a sync of the system before and after each
# gate, and how many bytes it writes for each byte of the entries. A small proved program adds N groups and then 2N, of 1 and of 64
# entries of 100 bytes each, and this script times it from outside.
# usage: bench/groups.sh [N [FOLDER]]
# Without N it is 20000 over memory and 500 over a file; without FOLDER the file is in a new folder below /tmp. Of three runs the
# fastest counts. The last column is the ratio of the seconds at 2N and at N: near 2 where the work grows with the groups alone.
top=$(CDPATH= cd -- "$(dirname -- "$0")/.." && pwd) || exit 1
n=${1:-}
case $n in
*[!0-9]* | 0*)
    echo "usage: bench/groups.sh [N [FOLDER]]" >&2
    exit 2
    ;;
esac
(cd "$top/crates/benches" && rt run -- "memory 1 1") >/dev/null 2>&1 || exit 1
program=$top/crates/benches/out/benches
made=
if [ -n "${2:-}" ]; then
    folder=$2
else
    folder=$(mktemp -d) || exit 1
    made=$folder
fi
trap 'rm -f "$folder/groups-of-a-bench"; [ -z "$made" ] || rmdir "$made"' EXIT

# The seconds of the fastest of three runs, and the bytes that the log then has.
fastest() {
    for run in 1 2 3; do
        start=$(date +%s.%N)
        said=$("$program" "$1") || exit 1
        awk -v start="$start" -v end="$(date +%s.%N)" -v said="$said" \
            'BEGIN { count = split(said, word, " "); printf "%.6f %s\n", end - start, word[count] }'
    done | sort -n | head -n 1
}

# One place, N groups and one size of them, and the path behind these, if there is one. Prints a line.
measure() {
    once=$(fastest "$1 $2 $3${4:+ $4}")
    twice=$(fastest "$1 $((2 * $2)) $3${4:+ $4}")
    if [ -z "$once" ] || [ -z "$twice" ]; then
        echo "the program did not add $2 groups and then twice as many" >&2
        exit 1
    fi
    # Each byte of the log is written once, and each gate a second time.
    awk -v what="$1" -v groups="$2" -v count="$3" -v once="$once" -v twice="$twice" 'BEGIN {
        split(once, one, " ")
        split(twice, two, " ")
        printf "%-6s %6d groups of %2d: %.3f s, %d groups a second, %.2f bytes written for each, ratio %.2f\n",
            what, groups, count, one[1], groups / one[1], (one[2] + groups) / (groups * count * 100), two[1] / one[1]
    }'
}

for count in 1 64; do
    measure memory "${n:-20000}" "$count"
    measure file "${n:-500}" "$count" "$folder/groups-of-a-bench"
done
