#!/bin/bash
# Measures the exchange with the certificate tools through the calls for C: what as_hash_tree wrote of 1,024 entries, written in CBOR and read
# back, beside a plain Rust reader and writer of the same shape, the oracle's, which makes a tree, and rebuild. CPU time, the best of 15
# turns of 8 runs, the sides taking turns. Keys are names of registers of 24 bytes with descriptors of 16, and then the longest, 48 and
# 64. It needs gcc and rustc, and is no part of the gate.
set -eu
cd "$(dirname "$0")/.."
room=$(mktemp -d)
trap 'rm -rf "$room"' EXIT
bench/native.sh c_boundary "$room/ours.o"
rustc --edition 2021 -C opt-level=3 -C panic=abort bench/rust_cbor.rs -o "$room/rust.a"
gcc -O3 -Wall -Wextra bench/cbor.c "$room/ours.o" "$room/rust.a" -lpthread -ldl -lm -o "$room/bench"
echo "$(uname -m), $(lscpu | sed -n 's/^Model name: *//p')"
"$room/bench"
