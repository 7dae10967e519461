#!/bin/sh
# What a replaced leader costs: the bench of asks where each 50th ask finds a leader that does nothing, who is replaced.
# usage: bench/leaders.sh [N [PROGRAM]]
# Without N it is 2000, and without PROGRAM the proved program that ./prove makes. The status is that of bench/asks.sh.
top=$(CDPATH= cd -- "$(dirname -- "$0")/.." && pwd) || exit 1
exec "$top/bench/asks.sh" "${1:-2000}" 8 "${2:-$top/out/smart}" 50
