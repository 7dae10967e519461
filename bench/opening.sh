#!/bin/sh
# How much memory the opening of a store takes, whatever the size of its log. A small proved program makes logs of 100-byte entries in
# a file, in one group and in groups of 64, and then opens a store over each, entry by entry, and keeps none. This script takes the
# peak memory of an opening, less that over an empty log, and the seconds.
# usage: bench/opening.sh [MIB [FOLDER]]
# Without MIB the logs have 64 MiB and then 128; without FOLDER the file is in a new folder below /tmp. The status is 1 where an opening
# takes 4 MiB or more. There has to be a GNU time.
top=$(CDPATH= cd -- "$(dirname -- "$0")/.." && pwd) || exit 1
mib=${1:-64}
case $mib in
'' | 0* | *[!0-9]*)
    echo "usage: bench/opening.sh [MIB [FOLDER]]" >&2
    exit 2
    ;;
esac
(cd "$top/crates/benches" && rt run -- "opening /dev/null") >/dev/null 2>&1 || exit 1
program=$top/crates/benches/out/benches
made=
if [ -n "${2:-}" ]; then
    folder=$2
else
    folder=$(mktemp -d) || exit 1
    made=$folder
fi
log=$folder/log-of-a-bench
trap 'rm -f "$log" "$folder/memory-of-a-bench"; [ -z "$made" ] || rmdir "$made"' EXIT

# The peak memory of an opening in KiB.
peak() {
    /usr/bin/time -f %M -o "$folder/memory-of-a-bench" "$program" "opening $1" >/dev/null || exit 1
    cat "$folder/memory-of-a-bench"
}

# A log of so many groups of so many entries. Prints a line, and answers whether the memory is below the limit.
measure() {
    "$program" "file $1 $2 $log" >/dev/null || exit 1
    start=$(date +%s.%N)
    said=$("$program" "opening $log") || exit 1
    end=$(date +%s.%N)
    awk -v groups="$1" -v count="$2" -v said="$said" -v peak="$(peak "$log")" -v none="$none" -v seconds="$(echo "$end $start" | awk '{ print $1 - $2 }')" 'BEGIN {
        words = split(said, word, " ")
        printf "%6d groups of %7d entries, %10d bytes: %.3f s, %d KiB of memory\n", groups, count, word[words], seconds, peak - none
        exit word[words - 1] != groups * count || peak - none >= 4096
    }'
}

none=$(peak /dev/null)
status=0
for size in "$mib" $((2 * mib)); do
    # An entry takes 104 bytes, and a group 17 beside its entries.
    measure 1 $((size * 1048576 / 104)) || status=1
    measure $((size * 1048576 / 6673)) 64 || status=1
done
exit $status
