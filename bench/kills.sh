#!/bin/sh
# What kills do to a group of four processes: members are killed at random moments, one at a time, while a client puts values.
# usage: bench/kills.sh [KILLS [PROGRAM]]
# Without KILLS it is 200. Without PROGRAM it is the proved program that ./prove makes.
# The status is 0 if each value whose reply was accepted is there after all members were killed and started again, and each member
# ends well. Last a line has the seconds.
top=$(CDPATH= cd -- "$(dirname -- "$0")/.." && pwd) || exit 1
kills=${1:-200}
program=${2:-$top/out/smart}
case $kills in
'' | 0* | *[!0-9]*)
    echo "usage: bench/kills.sh [KILLS [PROGRAM]]" >&2
    exit 2
    ;;
esac
work=$(mktemp -d) || exit 1
trap 'rm -rf "$work"' EXIT
began=$(date +%s)
"$top/examples/cluster/cluster" --program "$program" --dir "$work" --kills "$kills" --asks "$((10 * kills))" || exit 1
echo "$kills kills within $(($(date +%s) - began)) seconds"
