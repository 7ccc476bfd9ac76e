#!/bin/bash
# beside-rust.sh DRIVER.c: links a driver with crate timed's code for this machine and with the Rust's side, names the machine, and
# runs it. It needs gcc and rustc.
set -eu
cd "$(dirname "$0")/.."
room=$(mktemp -d)
trap 'rm -rf "$room"' EXIT
bench/native.sh timed "$room/ours.o"
rustc --edition 2021 -C opt-level=3 -C panic=abort bench/rust_side.rs -o "$room/rust.a"
gcc -O3 "$1" "$room/ours.o" "$room/rust.a" -lpthread -ldl -lm -o "$room/bench"
echo "$(uname -m), $(lscpu | sed -n 's/^Model name: *//p')"
"$room/bench"
