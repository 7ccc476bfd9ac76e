#!/bin/bash
# Measures replay of build logs of 1,024 inserts, of 1,024 modifies and of 1,024 deletes on a store of 1,024 slots, beside the same calls one by
# one on a store known to be sound (crate timed, with its one judging), and beside one public call per record, in one run: CPU time, the best of
# 15 turns, the sides taking turns; the public calls, which judge 1,024 times, once. Keys of 24 bytes with values of 16, then 48 and 64. The final
# bytes of the three sides are compared. It needs gcc and binutils, and is no part of the gate.
set -eu
cd "$(dirname "$0")/.."
room=$(mktemp -d)
trap 'rm -rf "$room"' EXIT
for crate in timed c_boundary; do bench/native.sh "$crate" "$room/$crate.o"; done
objcopy --wildcard --keep-global-symbol='timed_*' "$room/timed.o"
objcopy --wildcard --keep-global-symbol='dampcandle_*' "$room/c_boundary.o"
gcc -O3 bench/replay.c "$room/timed.o" "$room/c_boundary.o" -o "$room/bench"
echo "$(uname -m), $(lscpu | sed -n 's/^Model name: *//p')"
"$room/bench"
