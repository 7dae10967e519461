#!/bin/sh
# What an ask costs. Plays a script of N asks by so many clients with a flow after each has asked, and then one of 2N: the
# seconds of a run and of an ask, the peak memory of a run, and the bytes of memory that an ask adds.
# usage: bench/asks.sh [N [CLIENTS [PROGRAM [EVERY [CRASH [PERIOD]]]]]]
# Without N it is 2000, without CLIENTS 8, and without PROGRAM the proved program that ./prove makes. With EVERY the leader is
# replaced at every ask whose number it divides: the others ask for the next regency as time passes. With CRASH all members
# crash after every ask whose number it divides, and restart from what their devices hold. With PERIOD each member takes one
# checkpoint in each period of so many places; without it in each 1024. With 1000 clients most batches have 64 requests. Of
# three runs the fastest counts, and the least peak. A line of ratios follows, of the run of 2N to that of N: near 2 where the work grows with the asks alone.
# The status is 1 where the seconds' ratio is 2.3 or more. Memory is measured where there is a GNU time.
top=$(CDPATH= cd -- "$(dirname -- "$0")/.." && pwd) || exit 1
n=${1:-2000}
clients=${2:-8}
program=${3:-$top/out/smart}
every=${4:-4294967296}
crash=${5:-4294967296}
period=${6:-1024}
for number in "$n" "$clients" "$every" "$crash" "$period"; do
    case $number in
    '' | 0* | *[!0-9]*)
        echo "usage: bench/asks.sh [N [CLIENTS [PROGRAM [EVERY [CRASH [PERIOD]]]]]]" >&2
        exit 2
        ;;
    esac
done
if [ "$clients" -gt 1024 ]; then
    echo "there are at most 1024 clients" >&2
    exit 2
fi
if [ ! -x "$program" ]; then
    echo "there is no program at $program: ./prove makes one" >&2
    exit 1
fi
if [ $# -lt 3 ] && ! "$top/prove" stands; then
    echo "(the sources have changed since $program was proved)" >&2
fi
folder=$(mktemp -d) || exit 1
trap 'rm -rf "$folder"' EXIT

# A script of so many asks.
script() {
    awk -v asks="$1" -v clients="$clients" -v every="$every" -v crash="$crash" -v period="$period" 'BEGIN {
        leader = 1
        print "group 4 1"
        print "app count"
        if (period != 1024) print "period", period
        for (i = 1; i <= asks; i++) {
            if (i % every == 0) print "flow"
            print "ask", (i - 1) % clients + 1, i
            if (i % every == 0) {
                others = ""
                for (m = 1; m <= 4; m++) if (m != leader) others = others " " m
                print "flow" others
                print "tick" others
                print "tick" others
                leader = leader % 4 + 1
            }
            if (i % clients == 0 || i % every == 0 || i % crash == 0 || i == asks) print "flow"
            if (i % crash == 0) {
                print "crash all new"
                print "restart all"
            }
        }
    }'
}

# The seconds of one run over the script.
seconds() {
    start=$(date +%s.%N)
    "$program" world <"$folder/script" >"$folder/transcript" || return 1
    awk -v start="$start" -v end="$(date +%s.%N)" 'BEGIN { printf "%.6f\n", end - start }'
}

# The peak memory of one run in bytes, or `-`.
memory() {
    if /usr/bin/time -f %M -o "$folder/memory" true 2>/dev/null; then
        /usr/bin/time -f %M -o "$folder/memory" "$program" world <"$folder/script" >/dev/null || return 1
        awk '{ printf "%.0f\n", $1 * 1024 }' "$folder/memory"
    else
        echo -
    fi
}

# The least of the numbers of three calls.
least_of_three() {
    : >"$folder/numbers"
    for run in 1 2 3; do
        "$1" >>"$folder/numbers" || return 1
    done
    sort -n "$folder/numbers" | head -n 1
}

# Plays so many asks, prints a line, and leaves asks, seconds and bytes in the file `measured`.
play() {
    script "$1" >"$folder/script"
    if ! fastest=$(least_of_three seconds) || ! peak=$(least_of_three memory); then
        echo "the program did not play $1 asks to their end" >&2
        exit 1
    fi
    accepted=$(grep -c '^accepted ' "$folder/transcript")
    if [ "$accepted" -ne "$1" ]; then
        echo "of $1 asks $accepted were answered" >&2
        exit 1
    fi
    echo "$1 $fastest $peak" >"$folder/measured"
    awk '{ printf "%d asks: %.3f s, %.6f s an ask, peak memory %s bytes\n", $1, $2, $2 / $1, $3 }' "$folder/measured"
}

play "$n"
once=$(cat "$folder/measured")
play "$((2 * n))"
awk -v once="$once" -v twice="$(cat "$folder/measured")" 'BEGIN {
    split(once, a, " ")
    split(twice, b, " ")
    ratio = b[2] / a[2]
    printf "ratios: seconds %.2f, seconds an ask %.2f", ratio, ratio * a[1] / b[1]
    if (a[3] != "-") printf ", peak memory %.2f; %.0f bytes of memory an ask", b[3] / a[3], (b[3] - a[3]) / (b[1] - a[1])
    printf "\n"
    if (ratio >= 2.3) {
        print "the seconds grow faster than the asks: their ratio has to be below 2.3" > "/dev/stderr"
        exit 1
    }
}'
