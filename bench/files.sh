#!/bin/bash
# Measures what a desk does that has files and no store, through the calls for C, beside rebuild in the same run: CPU time, the best of 15
# turns, the two sides taking turns. Of 1,024 entries: lookup in what as_hash_tree wrote, for every eighth key of the map; merge of that
# with the witness of one key, and of two ranges of 512 keys with their values; rebuild of it in parts: as one, of 64 bytes and of one
# byte. Merge also beside the customer's merge_hash_trees with the two digests that it leaves out. Keys are names of registers of 24
# bytes with descriptors of 16, and then the longest, 48 and 64. It needs gcc and rustc, and is no part of the gate.
set -eu
cd "$(dirname "$0")/.."
room=$(mktemp -d)
trap 'rm -rf "$room"' EXIT
bench/native.sh c_boundary "$room/ours.o"
rustc --edition 2021 -C opt-level=3 -C panic=abort bench/rust_merge.rs -o "$room/rust.a"
gcc -O3 -Wall -Wextra bench/files.c "$room/ours.o" "$room/rust.a" -lpthread -ldl -lm -o "$room/bench"
echo "$(uname -m), $(lscpu | sed -n 's/^Model name: *//p')"
"$room/bench"
