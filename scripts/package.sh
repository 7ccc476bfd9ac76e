#!/bin/bash
# package.sh [OUT]: a folder that can be mailed round, OUT/dampcandle-VERSION (target/package), and the same as a .tar.gz: the tool with the
# script that gives it an exit status, the header and the archive for C with a file for pkg-config, a man page, completion for bash,
# the pages, the examples and the licence. What it holds runs on x86-64 Linux with glibc 2.34 or newer and needs no kit; it is then tried
# in an empty environment, where there is none.
set -eu
cd "$(dirname "$0")/.."
version=$(sed -n 's/^#define DAMPCANDLE_VERSION "\(.*\)"/\1/p' include/dampcandle.h)
out=$(realpath -m "${1:-target/package}")
name=dampcandle-$version
here=$out/$name
./regmap --version >/dev/null
scripts/prove.sh lib c_boundary
rm -rf "$here"
mkdir -p "$here"/{bin,include,lib/regmap,lib/pkgconfig,share/man/man1,share/bash-completion/completions,share/doc/dampcandle,examples}
cp crates/regmap/out/regmap scripts/start-regmap.sh "$here/lib/regmap/"
cat >"$here/bin/regmap" <<'SCRIPT'
#!/bin/sh
# The tool, from wherever this folder stands. The program has no exit status of its own; start with this script.
self=$(readlink -f -- "$0") || exit 2
home=$(dirname -- "$(dirname -- "$self")")/lib/regmap
[ "$(uname -m)" = x86_64 ] || { echo "regmap: this program is for x86-64, not $(uname -m)" >&2; exit 2; }
exec "$home/start-regmap.sh" env "$home/regmap" "$@"
SCRIPT
chmod +x "$here/bin/regmap"
cp include/dampcandle.h "$here/include/"
cp crates/c_boundary/out/libc_boundary.a "$here/lib/libdampcandle.a"
sed "s/@VERSION@/$version/" scripts/package/dampcandle.pc >"$here/lib/pkgconfig/dampcandle.pc"
sed "s/@VERSION@/$version/" scripts/package/regmap.1 >"$here/share/man/man1/regmap.1"
cp scripts/package/regmap.bash "$here/share/bash-completion/completions/regmap"
cp NOTICE docs/REGMAP.md docs/WITNESS.md "$here/share/doc/dampcandle/"
cp -r examples/*.map examples/*.witness examples/*.py examples/*.svd examples/*.run examples/c scripts/svd-to-map.py "$here/examples/"
tar -C "$out" -czf "$out/$name.tar.gz" "$name"

# tried without the kit: a copy under another name, started through a link, with nothing on the PATH but the system's tools
room=$(mktemp -d)
trap 'rm -rf "$room"' EXIT
tar -C "$room" -xzf "$out/$name.tar.gz"
mv "$room/$name" "$room/moved"
ln -s "$room/moved/bin/regmap" "$room/regmap"
plain() { (cd "$room" && env -i PATH=/usr/bin:/bin "$@"); }
plain sh -c '! command -v rt' >/dev/null
plain ./regmap build moved/examples/uart.map u.store >/dev/null
[ "$(plain ./regmap root u.store)" = "$(plain ./regmap read moved/examples/full.witness | sed -n 's/^root digest //p')" ]
status=0
plain ./regmap check moved/examples/irq.witness "$(printf '%064d' 0)" >/dev/null 2>&1 || status=$?
[ "$status" = 1 ]
if command -v gcc >/dev/null; then
  plain gcc -std=c11 -Imoved/include moved/examples/c/tour.c -Lmoved/lib -ldampcandle -o tour
  plain ./tour | cmp - examples/c/tour.txt
fi
if command -v pkg-config >/dev/null; then
  plain env PKG_CONFIG_PATH="$room/moved/lib/pkgconfig" pkg-config --exact-version="$version" dampcandle
fi
echo "package: $out/$name.tar.gz, $(stat -c %s "$out/$name.tar.gz") bytes, tried without the kit"
