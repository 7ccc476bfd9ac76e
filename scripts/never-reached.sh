#!/bin/bash
# never-reached.sh [SCRIPTS [LINES]]: request Q-6 by a run. Builds a copy of the oracle in a folder that goes again, with the rule of three
# Pruned of `three_way_fork` and the last arm of `witness_range_between` replaced by a panic, and runs random histories through it: every
# witness call on random stores, bounds present, absent and extreme. Prints how many walks were run; a panic ends it with an error.
# SCRIPTS scripts (20) of LINES lines (5,000) each, from the seeds 1, 2, ..; the copy that the comparison uses stays unchanged.
# It needs cargo, and is no part of the gate.
set -eu
cd "$(dirname "$0")/.."
scripts=${1:-20} lines=${2:-5000}
room=$(mktemp -d)
trap 'rm -rf "$room"' EXIT
cp -r oracle/Cargo.toml oracle/Cargo.lock oracle/src "$room"
rust=$room/src/rb_tree/mod.rs
sed -i -e 's/^ *pruned(fork_hash(&lhash, &fork_hash(&mhash, &rhash)))$/panic!("three Pruned: {lhash:?} {mhash:?} {rhash:?}")/' \
  -e 's/^\( *_ => \)pruned(n.subtree_hash),$/\1panic!("the last arm"),/' "$rust"
[ "$(diff oracle/src/rb_tree/mod.rs "$rust" | grep -c '^>')" = 2 ] || { echo "the two arms are not where they were" >&2; exit 1; }
cargo build --quiet --release --offline --manifest-path "$room/Cargo.toml" 2>"$room/said" || { cat "$room/said" >&2; exit 1; }
oracle=$room/target/release/oracle
walks=0
for seed in $(seq 1 "$scripts"); do
  "$oracle" script "$seed" "$lines" >"$room/script"
  "$oracle" calls <"$room/script" >"$room/answers" || { echo "seed $seed: a panic" >&2; exit 1; }
  n=$(paste -d ' ' <(cut -d ' ' -f 1 "$room/script") <(cut -d ' ' -f 1 "$room/answers") | grep -cE '^(full|keys|witness|krange|vrange|prefix) [06]$') || true
  walks=$((walks + n))
done
echo "$walks walks were run, and none panicked"
