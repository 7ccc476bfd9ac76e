#!/bin/bash
# Measures the soundness of a store of 1,024 entries (keys of 48 bytes, values of 64) against the least number of SHA-256 blocks
# that it takes, by plain C (gcc and the kit's clang), all at -O3, in one run: CPU time, the best of 40 turns.
# It needs gcc, and is no part of the gate.
set -eu
cd "$(dirname "$0")/.."
machine=$(uname -m)
clang=$(dirname "$(rt doc)")/toolchain/bin/clang
room=$(mktemp -d)
trap 'rm -rf "$room"' EXIT

bench/native.sh judge "$room/ours.o"
for c in gcc clang; do
  { cat bench/plain.c; echo "void BLOCKS(uint32_t v[8], const uint8_t *p, size_t n) { for (; n; n--, p += 64) compress(v, p); }"; } >"$room/$c.c"
done
gcc -O3 -DNAME=plain_gcc -DBLOCKS=blocks_gcc -c "$room/gcc.c" -o "$room/gcc.o"
"$clang" --target="$machine-unknown-linux-gnu" -O3 -fPIC -DNAME=plain_clang -DBLOCKS=blocks_clang -c "$room/clang.c" -o "$room/clang.o"
gcc -O3 bench/soundness.c "$room/gcc.o" "$room/clang.o" "$room/ours.o" -o "$room/bench"
echo "$machine, $(lscpu | sed -n 's/^Model name: *//p')"
"$room/bench"
