#!/bin/sh
# How much memory a member takes to take over a replica. A small proved program makes a plan for a snapshot, keeps its parts, joins
# them, and makes the replica. This script takes its peak memory, less that for an empty state.
# usage: bench/transfer.sh [MIB]
# Without MIB the states have 4 MiB and then 11. At the peak there are the parts, what they are joined to, and the replica. The status
# is 1 where that is over three times the state and 2 MiB. There has to be a GNU time.
top=$(CDPATH= cd -- "$(dirname -- "$0")/.." && pwd) || exit 1
case ${1:-4} in
0* | *[!0-9]*)
    echo "usage: bench/transfer.sh [MIB]" >&2
    exit 2
    ;;
esac
(cd "$top/crates/benches" && rt run -- "transfer 1") >/dev/null 2>&1 || exit 1
program=$top/crates/benches/out/benches
folder=$(mktemp -d) || exit 1
trap 'rm -f "$folder/memory"; rmdir "$folder"' EXIT

# The peak memory for a state of so many MiB, in KiB.
peak() {
    /usr/bin/time -f %M -o "$folder/memory" "$program" "transfer $1" >/dev/null || exit 1
    cat "$folder/memory"
}

# A state of so many MiB. Prints a line, and answers whether the memory is within the limit.
measure() {
    start=$(date +%s.%N)
    said=$("$program" "transfer $1") || exit 1
    end=$(date +%s.%N)
    awk -v mib="$1" -v said="$said" -v peak="$(peak "$1")" -v none="$none" -v seconds="$(echo "$end $start" | awk '{ print $1 - $2 }')" 'BEGIN {
        split(said, word, " ")
        printf "%2d MiB in %3d parts: %.3f s, %d KiB of memory\n", mib, word[4], seconds, peak - none
        exit peak - none > 3 * 1024 * mib + 2048
    }'
}

none=$(peak 0)
status=0
for mib in ${1:-4 11}; do
    measure "$mib" || status=1
done
exit $status
