#!/bin/bash
# Measures the difference of two full stores of 1,024 entries through the call for C, beside the judging of both (two calls of count) in the
# same run: CPU time, the best of 40 turns, the two sides taking turns. Equal maps in other shapes (no line), all values changed in their last
# byte (1,024 lines), and no key in both (2,048 lines), with room for any list; and with no byte of output to spare, which takes two walks. Keys
# are names of registers of 24 bytes with descriptors of 16, and then the longest.
# It needs gcc, and is no part of the gate.
set -eu
cd "$(dirname "$0")/.."
room=$(mktemp -d)
trap 'rm -rf "$room"' EXIT
bench/native.sh c_boundary "$room/ours.o"
gcc -O3 -Wall -Wextra bench/difference.c "$room/ours.o" -o "$room/bench"
echo "$(uname -m), $(lscpu | sed -n 's/^Model name: *//p')"
"$room/bench"
