#!/bin/sh
# How many bytes a second are digested (SHA-256 of the kit's sha2), tagged (HMAC), spelled and read: a small proved
# program does each N times and 2N times, and this script times it from outside.
# usage: bench/bytes.sh [N]
# Without N it is 20000 pieces of 1,024 bytes for digest and tag, and a tenth as many proposals of 64 requests for
# encode and decode. A hundredth as many times the replica of a full key-value store (4,096 keys, 454,697 bytes) is spelled and
# digested (snapshot), and the same bytes are copied and digested (copy). Of three runs the fastest counts. The last column is
# the ratio of the seconds at 2N and at N: near 2 where the work grows with the bytes alone. A line with the processor seconds of
# snapshot to those of copy follows. The status is 1 where that is over 1.3: a snapshot may cost little beside its digest.
top=$(CDPATH= cd -- "$(dirname -- "$0")/.." && pwd) || exit 1
n=${1:-20000}
case $n in
'' | 0* | *[!0-9]*)
    echo "usage: bench/bytes.sh [N]" >&2
    exit 2
    ;;
esac
(cd "$top/crates/benches" && rt run -- "decode 1") >/dev/null 2>&1 || exit 1
program=$top/crates/benches/out/benches

# The seconds of the fastest of three runs, and the bytes of each.
fastest() {
    for run in 1 2 3; do
        start=$(date +%s.%N)
        said=$("$program" "$1 $2") || exit 1
        awk -v start="$start" -v end="$(date +%s.%N)" -v said="$said" \
            'BEGIN { split(said, word, " "); printf "%.6f %s\n", end - start, word[3] }'
    done | sort -n | head -n 1
}

# One kind of work.
measure() {
    once=$(fastest "$1" "$2") || exit 1
    twice=$(fastest "$1" $((2 * $2))) || exit 1
    awk -v what="$1" -v times="$2" -v once="$once" -v twice="$twice" 'BEGIN {
        split(once, a, " ")
        split(twice, b, " ")
        printf "%-8s %9d times: %.3f s, %.1f million bytes a second, ratio %.2f\n", what, times, a[1], a[2] / a[1] / 1e6, b[1] / a[1]
    }'
}

tenth=$((n / 10 + 1))
measure digest "$n"
measure tag "$n"
measure encode "$tenth"
measure decode "$tenth"
hundredth=$((n / 100 + 1))
measure snapshot "$hundredth"
measure copy "$hundredth"

# The processor seconds of the fastest of five runs.
spent() {
    for run in 1 2 3 4 5; do
        sh -c '"$@" >/dev/null && times' sh "$program" "$1 $2" |
            awk 'NR == 2 { split($0, part, /[ms ]+/); print 60 * (part[1] + part[3]) + part[2] + part[4] }'
    done | sort -n | head -n 1
}

twice=$((2 * hundredth))
awk -v spelled="$(spent snapshot "$twice")" -v copied="$(spent copy "$twice")" \
    'BEGIN { printf "snapshot to copy: %.2f times the processor seconds\n", spelled / copied; exit !(spelled <= 1.3 * copied) }'
status=$?

# How many tags one ask takes in a group of four, by the transcript of the example: each message that left bears one, and
# each addressee checks it and, in a proposal, that of each request. A check derives the signer's key first, which is
# one more HMAC, and so does a client that asks; a member that signs keeps its own key.
if [ -x "$top/out/smart" ]; then
    "$top/out/smart" world <"$top/examples/first.smart" | awk '
        $1 == "group" { members = $2 }
        $1 == "sent" { made++ }
        $1 == "sent" && $4 == "ask" { asked++ }
        $1 == "sent" && $4 ~ /^(ask|write|accept)$/ { checked += members }
        $1 == "sent" && $4 == "propose" { checked += members * (1 + $8) }
        $1 == "sent" && $4 == "reply" { checked++ }
        END { printf "one ask: %d tags made, %d checked, %d HMACs\n", made, checked, made + asked + 2 * checked }'
else
    echo "(there is no out/smart: ./prove makes it, and then this tells the tags of one ask)"
fi
exit $status
