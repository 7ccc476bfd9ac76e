#!/bin/bash
# fuzz.sh [SCRIPTS [LINES]]: any bytes, through our program `calls`: stores random and damaged, keys and values of every length,
# outputs about the witness's length, witnesses random and damaged, lines that are none (docs/CALLS.md, "Any bytes").
# SCRIPTS scripts (20) of LINES lines (15,000) each, from the seeds 1, 2, ..; a third of the lines are calls. Prints the calls made,
# how often each answered which number, how many refused ones were seen to change nothing, and what was wrong. It needs cargo, and
# is no part of the gate.
set -eu
cd "$(dirname "$0")/.."
scripts=${1:-20} lines=${2:-15000}
. scripts/oracle.sh
crashes=0 held=()
for seed in $(seq 1 "$scripts"); do
  "$oracle" fuzz "$seed" "$lines" >"$room/$seed.script"
  status=0
  scripts/run-program.sh calls <"$room/$seed.script" >"$room/$seed.answers" || status=$?
  [ "$status" = 0 ] || { crashes=$((crashes + 1)); echo "seed $seed: calls ended with status $status"; }
  held+=("$room/$seed.script" "$room/$seed.answers")
done
well=0
"$oracle" fuzzed "${held[@]}" || well=1
echo "$crashes crashes in $scripts runs"
[ "$well" = 0 ] && [ "$crashes" = 0 ]
