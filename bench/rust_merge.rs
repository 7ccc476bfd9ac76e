// The customer's merge_hash_trees (oracle/src/rb_tree/nested_rb_tree.rs, unchanged) behind C functions, with the digests of its two inputs
// compared first, which it leaves out. It hashes by the oracle's own SHA-256.
#![crate_type = "staticlib"]
#[path = "../oracle/src/hash_tree.rs"]
#[allow(dead_code)]
mod hash_tree;
#[path = "../oracle/src/nested.rs"]
mod nested;
#[path = "../oracle/src/rust_map.rs"]
#[allow(dead_code)]
mod rb_tree;
#[path = "../oracle/src/sha256.rs"]
mod sha256;
mod calls {
    pub fn hex(bytes: &[u8]) -> String {
        bytes.iter().map(|b| format!("{b:02x}")).collect()
    }
}

use hash_tree::{empty, fork, labeled, leaf, pruned, Hash, HashTree, HashTreeNode};
use rb_tree::{AsHashTree, RbTree};
use std::slice::{from_raw_parts, from_raw_parts_mut};

#[no_mangle]
pub unsafe extern "C" fn rust_parse(bytes: *const u8, n: usize) -> *mut HashTree {
    let (root, _) = HashTreeNode::parse(from_raw_parts(bytes, n), 64).unwrap();
    Box::into_raw(Box::new(HashTree { root }))
}

/// Takes both trees, and frees what it makes; the length written, 0 where it is not to be written or the digests differ.
#[no_mangle]
pub unsafe extern "C" fn rust_merge(one: *mut HashTree, other: *mut HashTree, write: bool, out: *mut u8, room: usize) -> usize {
    let (one, other) = (Box::from_raw(one), Box::from_raw(other));
    if one.digest() != other.digest() {
        return 0;
    }
    let merged = nested::merge_hash_trees(*one, *other);
    let mut made = Vec::with_capacity(room);
    if write {
        merged.root.write(&mut made);
    }
    std::hint::black_box(&merged);
    from_raw_parts_mut(out, room)[..made.len()].copy_from_slice(&made);
    made.len()
}
