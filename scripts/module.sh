#!/bin/bash
# module.sh CRATE OUT.bc: the LLVM module that a proved library is compiled to as a static library, before any back end of clang. The compiler gets
# the kit's tools with a clang that keeps what it is given.
set -eu
[ $# = 2 ] || { sed -n 2,3p "$0" >&2; exit 2; }
crate=$1 out=$(realpath -m "$2")
cd "$(dirname "$0")/.."
room=$(mktemp -d)
trap 'rm -rf "$room"' EXIT
scripts/prove.sh check "$crate" # all that it reaches; the compiler looks at the crate itself once more
kit=$(dirname "$(rt doc)")
mkdir -p "$room/tools/bin" "$room/kept"
ln -s "$kit/toolchain/lib" "$room/tools/lib"
for t in "$kit"/toolchain/bin/*; do ln -s "$t" "$room/tools/bin/$(basename "$t")"; done
rm "$room/tools/bin/clang"
printf '#!/bin/bash\nfor a in "$@"; do [ ! -f "$a" ] || cp "$a" "%s/kept/"; done\nexec "%s" "$@"\n' "$room" "$kit/toolchain/bin/clang" >"$room/tools/bin/clang"
chmod +x "$room/tools/bin/clang"
uses=(--extern "std=$kit/rlibs/std.rlib" -L "dependency=$kit/rlibs")
for d in crates/*/out/rlib; do uses+=(-L "dependency=$d"); done
for d in $(sed -n "s/^$crate\( staticlib\)*:[ ]*//p" crates.txt); do
  if [ -d "crates/$d" ]; then uses+=(--extern "$d=crates/$d/out/rlib/$d.rlib"); else uses+=(--extern "$d=$kit/rlibs/$d.rlib"); fi
done
"$kit/bin/rattle" build --crate-name "$crate" "crates/$crate/src/lib.rt" "${uses[@]}" --antt-project "$kit/rattle/logic/antt-project.json" \
  --logic-built "$kit/logic_built" --crate-type staticlib --backend llvm --toolchain "$room/tools" -o "$room/x86.a" >"$room/said" 2>&1 || { cat "$room/said" >&2; exit 1; }
module=$(find "$room/kept" -name '*.bc' | head -n 1)
[ -n "$module" ] || { echo "module.sh: the compiler handed clang no module" >&2; exit 1; }
cp "$module" "$out"
