#!/bin/bash
# c-tour.sh: builds examples/c/tour.c over the proved archive of crate c_boundary and compares what it prints with examples/c/tour.txt.
# The archive is for x86-64. There it needs gcc; elsewhere Debian's gcc-x86-64-linux-gnu, libc6-dev-amd64-cross and qemu-user, by which
# the program is cross-built and emulated. It installs nothing, and is no part of the gate.
set -eu
cd "$(dirname "$0")/.."
room=$(mktemp -d)
trap 'rm -rf "$room"' EXIT

if [ "$(uname -m)" = x86_64 ]; then
  cc=gcc run=() needs="gcc libc6-dev"
else
  cc=x86_64-linux-gnu-gcc run=(qemu-x86_64) needs="gcc-x86-64-linux-gnu libc6-dev-amd64-cross qemu-user"
fi
missing() {
  echo "c-tour: $1 is missing; on Debian: apt-get install $needs" >&2
  exit 2
}
command -v rt >/dev/null || { echo "c-tour: rt is missing: the Rattle kit is needed, and must be on the PATH" >&2; exit 2; }
for tool in "$cc" "${run[@]}"; do command -v "$tool" >/dev/null || missing "$tool"; done
echo '#include <stdio.h>' | "$cc" -E - >/dev/null 2>&1 || missing "the C library's headers for $cc"

scripts/prove.sh lib c_boundary || exit 1
warn=(-Wall -Wextra -Wpedantic -Wconversion -Werror -Iinclude)
"$cc" -std=c11 "${warn[@]}" -O2 -static examples/c/tour.c crates/c_boundary/out/libc_boundary.a -o "$room/tour"
if command -v c++ >/dev/null; then
  c++ -std=c++11 "${warn[@]}" -fsyntax-only -x c++ include/dampcandle.h
else
  echo "c-tour: the header was not tried as C++: there is no c++"
fi
"${run[@]}" "$room/tour" >"$room/tour.txt" || { cat "$room/tour.txt"; exit 1; }
diff -u examples/c/tour.txt "$room/tour.txt"
echo "c-tour: $(wc -l <examples/c/tour.txt) lines, as recorded"
