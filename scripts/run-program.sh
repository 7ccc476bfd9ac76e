#!/bin/sh
# run-program.sh NAME [ARGS]: runs the program that crate NAME was built to (crates/NAME/out/NAME), which is code for x86-64: there by itself, on
# another processor by Debian's qemu-user, with the kit's loader and C library.
set -eu
program=$(cd "$(dirname "$0")/.." && pwd)/crates/$1/out/$1
shift
[ "$(uname -m)" = x86_64 ] && exec "$program" "$@"
libraries=$(dirname "$(rt doc)")/toolchain/lib
exec qemu-x86_64 "$libraries/ld-linux-x86-64.so.2" --library-path "$libraries" "$program" "$@"
