#!/bin/bash
# native-archive.sh TARGET [OUT.a]: the archive for C for a processor that is not x86-64, as aarch64-linux-gnu or riscv64-linux-gnu: the
# module that the proved crate c_boundary is compiled to, by another back end of clang, at -O2. What is proved is that module's source;
# that a back end keeps its meaning is trusted here as it is for x86-64, and the gate does not run this one's code. The module's numbers
# and pointers have 64 bits, the least significant byte first, so no other processor will do. OUT.a is target/native/TARGET/libdampcandle.a.
set -eu
case $#:${1-} in [12]:aarch64-* | [12]:arm64-* | [12]:riscv64-* | [12]:x86_64-*) ;; *) sed -n 2,5p "$0" >&2; exit 2 ;; esac
target=$1 out=$(realpath -m "${2:-$(dirname "$0")/../target/native/$1/libdampcandle.a}")
cd "$(dirname "$0")/.."
mkdir -p "$(dirname "$out")"
room=$(mktemp -d)
trap 'rm -rf "$room"' EXIT
quietly() { "$@" >"$room/said" 2>&1 || { cat "$room/said" >&2; exit 1; }; }
tools=$(dirname "$(rt doc)")/toolchain/bin
scripts/module.sh c_boundary "$room/module.bc"
quietly "$tools/clang" --target="$target" -Wno-override-module -O2 -fPIC -c -x ir "$room/module.bc" -o "$room/dampcandle.o"
rm -f "$out"
quietly "$tools/llvm-ar" rcsD "$out" "$room/dampcandle.o"
echo "$out: $(stat -c %s "$out") bytes for $target"
