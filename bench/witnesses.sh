#!/bin/bash
# Measures witnesses of a store of 1,024 entries that is known to be sound, and rebuild of the largest one, beside the Rust's rb_tree
# (oracle/src/rb_tree, unchanged), in one run: CPU time, the best of 15 turns, the sides taking turns. as_hash_tree; the witness of
# each key by itself; the 993 ranges of 32 keys that stand next to each other, by key_range and by value_range; rebuild of what
# as_hash_tree wrote. Keys are names of registers of 24 bytes with descriptors of 16, and then the longest, 48 and 64.
# Ours: crate timed, which judges the store once in a call (not in rebuild); that judging is measured by itself and taken off. Ours
# hands back the written form. The Rust hands back a tree on the heap: "built" is building and freeing it, "and written" also writes
# it in document 01's form, which is what ours does. For rebuild "built" is the digest of a tree that stands already, and "and
# written" parses the bytes first, which is what ours does. The bytes of both sides are compared, and each witness is rebuilt.
# The Rust: its hash_tree is the oracle's stand-in, at opt-level 3 with no debug assertions; with the oracle's own plain Rust SHA-256,
# and with ours in its place. Digests and blocks of SHA-256 for one call are counted in the Rust.
# It needs gcc and rustc, and is no part of the gate.
exec "$(dirname "$0")/beside-rust.sh" bench/witnesses.c
