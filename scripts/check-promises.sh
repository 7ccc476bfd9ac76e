#!/bin/bash
# check-promises.sh: whether every name in docs/PROMISES.md, and in the tables of theorems and forms of docs/ARCHITECTURE.md, still
# stands in its file. It prints each row whose name or file is gone and then fails; else it prints how many rows and names it checked.
# It reads names and proves nothing: that they are proved is the gate's word.
set -eu
cd "$(dirname "$0")/.."
room=$(mktemp -d)
trap 'rm -rf "$room"' EXIT

# The names that a file declares, a line each: Record.field and Type::method too. Any other file declares its own name.
declared() {
  case $1 in
  *.antt) awk '
    { line = $0; indent = match(line, /[^ ]/) - 1; sub(/^ +/, "", line) }
    line == "" || line ~ /^--/ { next }
    { while (line ~ /^(pub|abbrev|unfoldable) /) sub(/^[a-z]+ /, "", line) }
    line ~ /^(record|data) [^{]/ { split(line, word, " "); print word[2]; record = word[1] == "record" ? word[2] : ""; at = indent; next }
    record != "" && indent <= at { record = "" }
    line ~ /^[^ ]+ :/ { split(line, word, " "); print word[1]; if (record != "") print record "." word[1] }' "$1" ;;
  *.rt) awk '
    { line = $0; sub(/^ +/, "", line); sub(/^pub /, "", line); sub(/^extern "C" /, "", line) }
    /^}/ { type = "" }
    line ~ /^impl / { split(line, word, " "); type = word[2] }
    line ~ /^(fn|const|struct|enum) / { split(line, word, /[ (:{;]+/); print word[2]; if (type != "") print type "::" word[2] }' "$1" ;;
  *.edit) basename "$1" .edit ;;
  *) basename "$1" ;;
  esac
}

# A table's rows whose names are to be checked: the line's number, the names, the files.
promised() {
  awk -F ' *[|] *' 'function ticked(cell,   out) {
      out = ""
      while (match(cell, /`[^`]+`/)) { out = out " " substr(cell, RSTART + 1, RLENGTH - 2); cell = substr(cell, RSTART + RLENGTH) }
      return out
    }
    NF == 6 && $5 !~ /^(file|---)$/ { printf "%d\t%s\t%s\n", NR, ticked($4), ticked($5) }' docs/PROMISES.md
}

# In ARCHITECTURE a row names crates and files without their ends (store/proofs/Table, of specs/Table); an empty cell means the row
# above, and "also" adds to it. A name may stand anywhere in those crates.
designed() {
  awk -F ' *[|] *' 'function crates(cell,   out) {
      out = ""
      while (match(cell, /[a-z_0-9]+\/(proofs|specs|src)/)) {
        if (match(cell, /[a-z_0-9]+\//)) out = out " crates/" substr(cell, RSTART, RLENGTH - 1)
        sub(/[a-z_0-9]+\/(proofs|specs|src)/, "", cell)
      }
      return out
    }
    function ticked(cell,   out, name) {
      out = ""
      while (match(cell, /`[^`]+`/)) {
        name = substr(cell, RSTART + 1, RLENGTH - 2); sub(/ .*/, "", name); out = out " " name
        cell = substr(cell, RSTART + RLENGTH)
      }
      return out
    }
    /^## / { on = $0 == "## Demands and theorems" }
    on && NF == 5 && $4 !~ /^(where|---)$/ {
      here = crates($4); gsub(/ crates\/(proofs|specs|src)/, "", here)
      if ($4 ~ /^also /) last = last here
      else if (here != "") last = here
      if (ticked($3) != "") printf "%d\t%s\t%s\n", NR, ticked($3), last
    }' docs/ARCHITECTURE.md
}

rows=0 names=0 gone=0
check() { # PAGE, with rows on standard input
  while IFS=$'\t' read -r line wanted files; do
    rows=$((rows + 1))
    : >"$room/declared"
    [ -n "${wanted// /}" ] && [ -n "${files// /}" ] || { echo "$1:$line: a row without a name or a file"; gone=$((gone + 1)); }
    for file in $files; do
      if [ -d "$file" ]; then
        while read -r each; do declared "$each"; done < <(find "$file" -name '*.antt' -o -name '*.rt') >>"$room/declared"
      elif [ -f "$file" ]; then
        declared "$file" >>"$room/declared"
      else
        echo "$1:$line: there is no $file"
        gone=$((gone + 1))
      fi
    done
    for name in $wanted; do
      names=$((names + 1))
      grep -qxF -e "$name" "$room/declared" || { echo "$1:$line: no $name in$files"; gone=$((gone + 1)); }
    done
  done
}
check docs/PROMISES.md < <(promised)
check docs/ARCHITECTURE.md < <(designed)

# The table of forms: after each file the name that stands in it.
forms=0
while read -r file name; do
  forms=$((forms + 1))
  grep -qwF -e "$name" "crates/$file" 2>/dev/null || { echo "docs/ARCHITECTURE.md: no $name in crates/$file"; gone=$((gone + 1)); }
done < <(sed -n '/^## Document 01.s table of forms/,/^## [^D]/p' docs/ARCHITECTURE.md | grep -oE '`[a-z_0-9]+/[^`]*` `[^`]+`' | tr -d '`')
[ "$forms" -ge 20 ] || { echo "only $forms places of forms were read: has the table changed?"; gone=$((gone + 1)); }

for public in crates/register_map/src/lib.rt crates/c_boundary/src/lib.rt; do
  if grep -n '^ *requires' "$public"; then
    echo "$public: a public crate's function has a requires"
    gone=$((gone + 1))
  fi
done
[ "$rows" -ge 90 ] || { echo "only $rows rows were read: has a table's form changed?"; gone=$((gone + 1)); }
echo "check-promises: $rows rows, $names names, $forms places of forms, $gone gone"
[ "$gone" = 0 ]
