#!/bin/bash
# Measures insert, get, modify and delete of a store known to be sound, beside the Rust's rb_tree (oracle/src/rb_tree, unchanged), in
# one run: CPU time, the best of 15 turns, the sides taking turns. At n entries, 16, 128 or 1,024, a turn is 1,024 of each operation:
# an empty map is filled with n keys in random order, 4,096 keys are looked up, each key gets another value, and each is deleted in
# another order; then the next map, with keys of its own. So an insert is one at n/2 entries on average, and so is a delete. Keys are
# names of registers of 24 bytes with descriptors of 16, and then the longest, 48 and 64. Both sides take the same tables of rows.
# Ours: crate timed, which judges the store once in a call; that judging is measured by itself and taken off.
# The Rust: its hash_tree is the oracle's stand-in, at opt-level 3 with no debug assertions; once with the oracle's own plain Rust
# SHA-256, once with ours in its place, so that what is left of a difference is not the hash. Digests and blocks of SHA-256 for an
# operation are counted in the Rust. Ours makes as many for modify, and fewer for insert and delete: each digest once.
# It needs gcc and rustc, and is no part of the gate.
exec "$(dirname "$0")/beside-rust.sh" bench/operations.c
