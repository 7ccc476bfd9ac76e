#!/bin/bash
# compare-with-rust.sh [SCRIPTS [LINES]]: runs random histories through our program `calls` and through the Rust oracle, and
# compares every answer: numbers, offsets, digests, witnesses, and the bytes of the store by their SHA-256.
# SCRIPTS scripts (20) of LINES lines (5,000) each, from the seeds 1, 2, ..; prints how many answers were compared and how many
# differ. It needs cargo; it is no part of the gate, which replays a recorded sample.
set -eu
cd "$(dirname "$0")/.."
scripts=${1:-20} lines=${2:-5000}
. scripts/oracle.sh
compared=0 differ=0
for seed in $(seq 1 "$scripts"); do
  "$oracle" script "$seed" "$lines" >"$room/script"
  "$oracle" calls <"$room/script" >"$room/theirs"
  scripts/run-program.sh calls <"$room/script" >"$room/ours"
  read -r n d < <(paste -d '\001' "$room/script" "$room/ours" "$room/theirs" |
    awk -F '\001' '{ if ($2 != $3) { d++; if (d == 1) printf "seed %s, line %d: %s\n ours   %s\n theirs %s\n", seed, NR, substr($1, 1, 200), substr($2, 1, 200), substr($3, 1, 200) > "/dev/stderr" } } END { print NR, d + 0 }' seed="$seed")
  compared=$((compared + n)) differ=$((differ + d))
done
echo "$compared answers compared, $differ differ"
[ "$differ" = 0 ]
