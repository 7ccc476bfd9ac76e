#!/bin/sh
# prove.sh COMMAND CRATE: proves CRATE and all that it reaches, with a line on standard error for each crate that is proved. COMMAND is `check`;
# `lib`, which also leaves the archive crates/CRATE/out/libCRATE.a of a static library; or `program`, which leaves crates/CRATE/out/CRATE and has
# run it once, with the word --version and nothing to read. What rt printed is shown where it fails; else nothing is printed on standard output.
set -u
cd "$(dirname -- "$0")/.." || exit 2
command -v rt >/dev/null || { echo "$2: the Rattle kit is needed: rt is not on the PATH" >&2; exit 2; }
case $1 in check | lib) ;; program) set -- run "$2" -- --version ;; *) sed -n 2,4p "$0" >&2; exit 2 ;; esac
command=$1 crate=$2
shift 2
# the crate, and all that it reaches
all=$(awk -v crate="$crate" '
  /^[a-z]/ { name = $1; sub(/:$/, "", name); uses[name] = $0; sub(/^[^:]*:/, "", uses[name]) }
  function reach(name,   each, n, i) {
    if (seen[name] || !(name in uses)) return
    seen[name] = 1; count++
    n = split(uses[name], each, " ")
    for (i = 1; i <= n; i++) reach(each[i])
  }
  END { reach(crate); print count }' crates.txt)
log=$(mktemp) || exit 2
trap 'rm -f "$log"' EXIT
echo "$crate: proving $all crates; the first time it takes ten minutes or more on two cores, and what has not changed is not proved again" >&2
{ (cd "crates/$crate" && rt "$command" "$@" 2>&1 </dev/null); echo "status $?"; } | tee "$log" | awk -v all="$all" -v crate="$crate" '
  /^crate [a-z_0-9]+: modules / { name = $2; sub(/:$/, "", name) }
  /^logic=proved / && name != "" { if (!seen[name]++) printf "%s: %s proved, %d of %d\n", crate, name, ++n, all; name = ""; fflush() }' >&2
case $(tail -n 1 "$log") in 'status 0') exit 0 ;; esac
tail -n 20 "$log" >&2
exit 1
