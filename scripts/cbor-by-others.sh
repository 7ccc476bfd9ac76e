#!/bin/bash
# cbor-by-others.sh [SCRIPTS [LINES]]: every CBOR of the comparison's scripts (compare-with-rust.sh), as our program `calls` wrote or read it, held
# to a reader and writer that others wrote (cbor-by-others.py). It needs cargo and Debian's python3-cbor2, and is no part of the gate.
set -eu
cd "$(dirname "$0")/.."
scripts=${1:-20} lines=${2:-5000}
python=
for p in python3 /usr/bin/python3; do "$p" -c 'import cbor2' 2>/dev/null && python=$p && break; done
[ -n "$python" ] || { echo "cbor-by-others: cbor2 is missing; on Debian: apt-get install python3-cbor2" >&2; exit 2; }
. scripts/oracle.sh
wrote=0 took=0 refused=0 faults=0
for seed in $(seq 1 "$scripts"); do
  "$oracle" script "$seed" "$lines" >"$room/script"
  scripts/run-program.sh calls <"$room/script" >"$room/ours"
  read -r w t r f < <("$python" scripts/cbor-by-others.py "$room/script" "$room/ours")
  wrote=$((wrote + w)) took=$((took + t)) refused=$((refused + r)) faults=$((faults + f))
done
echo "$wrote written and read by cbor2, $took that we took, $refused that we refused; $faults faults"
[ "$faults" = 0 ]
