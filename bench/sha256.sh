#!/bin/bash
# Measures SHA-256 of the crate sha256 against plain C (gcc and the kit's clang) and plain Rust, all at -O3, in one run:
# CPU time, the best of 15 turns. It needs gcc and rustc, and is no part of the gate.
set -eu
cd "$(dirname "$0")/.."
machine=$(uname -m)
clang=$(dirname "$(rt doc)")/toolchain/bin/clang
room=$(mktemp -d)
trap 'rm -rf "$room"' EXIT

bench/native.sh sha256 "$room/ours.o"
gcc -O3 -DNAME=plain_gcc -c bench/plain.c -o "$room/gcc.o"
"$clang" --target="$machine-unknown-linux-gnu" -O3 -fPIC -DNAME=plain_clang -c bench/plain.c -o "$room/clang.o"
rustc -C opt-level=3 -C panic=abort bench/plain.rs -o "$room/rust.a"
gcc -O3 bench/driver.c "$room/ours.o" "$room/gcc.o" "$room/clang.o" "$room/rust.a" -lpthread -ldl -lm -o "$room/bench"
echo "$machine, $(lscpu | sed -n 's/^Model name: *//p')"
"$room/bench"
