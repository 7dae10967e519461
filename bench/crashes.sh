#!/bin/sh
# What crashes cost: the bench of asks over so many places and over twice as many. After each 64th place all members crash and
# restart from what their devices hold. There are 64 clients. A round of them has two places: the first request is proposed
# alone and the others together.
# usage: bench/crashes.sh [PLACES [PROGRAM [PERIOD]]]
# Without PLACES it is 256, without PROGRAM the proved program that ./prove makes, and without PERIOD 16. The status is that of
# bench/asks.sh. A member that restarts reads its newest checkpoint and the log after it: what it wrote in a period, not all that
# it ever wrote down. The work of restarts thus grows with the places alone. With a period past eight times the places nobody
# takes a checkpoint. The work of restarts then grows with the square of the places, and the ratio with the places.
top=$(CDPATH= cd -- "$(dirname -- "$0")/.." && pwd) || exit 1
places=${1:-256}
case $places in
'' | 0* | *[!0-9]*)
    echo "usage: bench/crashes.sh [PLACES [PROGRAM [PERIOD]]]" >&2
    exit 2
    ;;
esac
exec "$top/bench/asks.sh" "$((32 * places))" 64 "${2:-$top/out/smart}" 4294967296 2048 "${3:-16}"
