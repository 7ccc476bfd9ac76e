#!/bin/bash
# native.sh CRATE OUT.o: the machine code of a proved library for this machine, to be linked into a benchmark: the module that the compiler
# hands to clang (scripts/module.sh), compiled at -O3 by the kit's clang.
set -eu
[ $# = 2 ] || { sed -n 2,3p "$0"; exit 2; }
crate=$1 out=$(realpath -m "$2")
cd "$(dirname "$0")/.."
room=$(mktemp -d)
trap 'rm -rf "$room"' EXIT
quietly() { "$@" >"$room/said" 2>&1 || { cat "$room/said" >&2; exit 1; }; }

quietly scripts/module.sh "$crate" "$room/module.bc"
quietly "$(dirname "$(rt doc)")/toolchain/bin/clang" --target="$(uname -m)-unknown-linux-gnu" -Wno-override-module -O3 -fPIC -c -x ir "$room/module.bc" -o "$out"
