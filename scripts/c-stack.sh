#!/bin/bash
# c-stack.sh: how many bytes of stack each call of the archive for C takes, measured (examples/c/stack.c), on x86-64. It needs gcc and rt, and
# is no part of the gate. The numbers stand in include/dampcandle.h.
set -eu
cd "$(dirname "$0")/.."
[ "$(uname -m)" = x86_64 ] || { echo "c-stack: it runs on x86-64 alone" >&2; exit 2; }
room=$(mktemp -d)
trap 'rm -rf "$room"' EXIT
scripts/prove.sh lib c_boundary
gcc -std=c11 -Wall -Wextra -Werror -Iinclude -O2 examples/c/stack.c crates/c_boundary/out/libc_boundary.a -o "$room/stack"
"$room/stack"
