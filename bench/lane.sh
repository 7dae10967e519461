#!/bin/sh
# How many entries a second one thread hands to another, through the lane and through the kit's plain queue (crossbeam_queue's
# ArrayQueue), both of capacity 1,024: a small proved program carries N numbers and then 2N, and this script times it from
# outside. On the lane the taking thread says after each 64 entries, and where it finds none, that all it took are stored.
# usage: bench/lane.sh [N]
# Without N it is 1000000. Of three runs the fastest counts. The last column is the ratio of the seconds at 2N and at N: near 2
# where the work grows with the entries alone. A line with the rate of the lane to that of the queue follows.
top=$(CDPATH= cd -- "$(dirname -- "$0")/.." && pwd) || exit 1
n=${1:-1000000}
case $n in
'' | 0* | *[!0-9]*)
    echo "usage: bench/lane.sh [N]" >&2
    exit 2
    ;;
esac
(cd "$top/crates/benches" && rt run -- "lane 1") >/dev/null 2>&1 || exit 1
program=$top/crates/benches/out/benches

# The seconds of the fastest of three runs.
fastest() {
    for run in 1 2 3; do
        start=$(date +%s.%N)
        said=$("$program" "$1 $2") || exit 1
        awk -v start="$start" -v end="$(date +%s.%N)" -v said="$said" -v count="$2" 'BEGIN {
            split(said, word, " ")
            if (word[3] != count) exit 1
            printf "%.6f\n", end - start
        }' || exit 1
    done | sort -n | head -n 1
}

# One way to carry entries. Prints a line, and leaves the seconds in a file by that way's name.
measure() {
    once=$(fastest "$1" "$n")
    twice=$(fastest "$1" $((2 * n)))
    if [ -z "$once" ] || [ -z "$twice" ]; then
        echo "the program did not carry $n entries and then twice as many" >&2
        exit 1
    fi
    awk -v what="$1" -v count="$n" -v once="$once" -v twice="$twice" \
        'BEGIN { printf "%-5s %9d entries: %.3f s, %.2f million entries a second, ratio %.2f\n", what, count, once, count / once / 1e6, twice / once }'
    echo "$once" >"$folder/$1"
}

folder=$(mktemp -d) || exit 1
trap 'rm -rf "$folder"' EXIT
measure queue
measure lane
awk -v queue="$(cat "$folder/queue")" -v lane="$(cat "$folder/lane")" \
    'BEGIN { printf "lane to queue: %.2f times the entries a second\n", queue / lane }'
