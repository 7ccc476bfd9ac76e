// The Rust's rb_tree (oracle/src/rb_tree, unchanged) behind C functions over the same tables that crate timed takes.
// It hashes by the oracle's own SHA-256 or, where `rust_hash_by_ours` says so, by ours; digests and blocks are counted.
#![crate_type = "staticlib"]
#[path = "../oracle/src/hash_tree.rs"]
#[allow(dead_code)]
mod hash_tree;
#[path = "../oracle/src/sha256.rs"]
mod plain;
#[path = "../oracle/src/rust_map.rs"]
#[allow(dead_code)]
mod rb_tree;

use hash_tree::{empty, labeled, leaf, pruned, HashTree, HashTreeNode};
use rb_tree::{inspect::Map, AsHashTree};
use std::slice::{from_raw_parts, from_raw_parts_mut};

mod sha256 {
    use std::cell::Cell;
    thread_local! {
        pub static OURS: Cell<bool> = const { Cell::new(false) };
        pub static DIGESTS: Cell<usize> = const { Cell::new(0) };
        pub static BLOCKS: Cell<usize> = const { Cell::new(0) };
    }
    extern "C" {
        fn timed_sha256(message: *const u8, length: usize, digest: *mut u8);
    }

    fn ours(parts: &[&[u8]]) -> [u8; 32] {
        let (mut message, mut n) = ([0u8; 256], 0);
        for part in parts {
            message[n..n + part.len()].copy_from_slice(part);
            n += part.len();
        }
        let mut digest = [0u8; 32];
        unsafe { timed_sha256(message.as_ptr(), n, digest.as_mut_ptr()) };
        digest
    }

    pub fn sha256(parts: &[&[u8]]) -> [u8; 32] {
        let n: usize = parts.iter().map(|p| p.len()).sum();
        DIGESTS.set(DIGESTS.get() + 1);
        BLOCKS.set(BLOCKS.get() + (n + 8) / 64 + 1);
        if OURS.get() {
            ours(parts)
        } else {
            crate::plain::sha256(parts)
        }
    }
}

#[no_mangle]
pub extern "C" fn rust_hash_by_ours(yes: bool) {
    sha256::OURS.set(yes);
}

/// How many digests and blocks since the last time.
#[no_mangle]
pub unsafe extern "C" fn rust_hashed(digests: *mut usize, blocks: *mut usize) {
    *digests = sha256::DIGESTS.replace(0);
    *blocks = sha256::BLOCKS.replace(0);
}

unsafe fn rows<'a>(table: *const u8, room: usize, length: usize, n: usize) -> impl Iterator<Item = &'a [u8]> {
    let table = if n == 0 { &[][..] } else { from_raw_parts(table, room * n) };
    table.chunks_exact(room).map(move |row| &row[..length])
}

#[no_mangle]
pub extern "C" fn rust_new() -> *mut Map {
    Box::into_raw(Box::new(Map::new()))
}

#[no_mangle]
pub unsafe extern "C" fn rust_free(map: *mut Map) {
    drop(Box::from_raw(map));
}

#[no_mangle]
pub unsafe extern "C" fn rust_root(map: *const Map, out: *mut u8) {
    from_raw_parts_mut(out, 32).copy_from_slice(&(*map).root_hash());
}

#[no_mangle]
pub unsafe extern "C" fn rust_insert(map: *mut Map, keys: *const u8, k: usize, values: *const u8, v: usize, n: usize) {
    for (key, value) in rows(keys, 64, k, n).zip(rows(values, 64, v, n)) {
        (*map).insert(key.to_vec(), value.to_vec());
    }
}

#[no_mangle]
pub unsafe extern "C" fn rust_modify(map: *mut Map, keys: *const u8, k: usize, values: *const u8, v: usize, n: usize) {
    for (key, value) in rows(keys, 64, k, n).zip(rows(values, 64, v, n)) {
        (*map).modify(key, |old| {
            old.clear();
            old.extend_from_slice(value);
        });
    }
}

#[no_mangle]
pub unsafe extern "C" fn rust_delete(map: *mut Map, keys: *const u8, k: usize, n: usize) {
    for key in rows(keys, 64, k, n) {
        (*map).delete(key);
    }
}

#[no_mangle]
pub unsafe extern "C" fn rust_get(map: *const Map, keys: *const u8, k: usize, n: usize) -> usize {
    rows(keys, 64, k, n).filter(|key| (*map).get(key).is_some()).count()
}

// ---- witnesses: the HashTree is built and freed, and written where `write` says so; the length written last

fn taken(tree: HashTree, write: bool, out: &mut Vec<u8>) {
    if write {
        out.clear();
        tree.root.write(out);
    }
    std::hint::black_box(&tree);
}

unsafe fn handed(made: Vec<u8>, out: *mut u8, room: usize) -> usize {
    from_raw_parts_mut(out, room)[..made.len()].copy_from_slice(&made);
    made.len()
}

#[no_mangle]
pub unsafe extern "C" fn rust_as_hash_tree(map: *const Map, n: usize, write: bool, out: *mut u8, room: usize) -> usize {
    let mut made = Vec::with_capacity(room);
    for _ in 0..n {
        taken((*map).as_hash_tree(), write, &mut made);
    }
    handed(made, out, room)
}

#[no_mangle]
pub unsafe extern "C" fn rust_witness(map: *const Map, keys: *const u8, k: usize, n: usize, write: bool, out: *mut u8, room: usize) -> usize {
    let mut made = Vec::with_capacity(room);
    for key in rows(keys, 64, k, n) {
        taken((*map).witness(key), write, &mut made);
    }
    handed(made, out, room)
}

#[no_mangle]
pub unsafe extern "C" fn rust_range(
    map: *const Map, values: bool, firsts: *const u8, lasts: *const u8, k: usize, n: usize, write: bool, out: *mut u8, room: usize,
) -> usize {
    let mut made = Vec::with_capacity(room);
    for (first, last) in rows(firsts, 64, k, n).zip(rows(lasts, 64, k, n)) {
        let tree = if values { (*map).value_range(first, last) } else { (*map).key_range(first, last) };
        taken(tree, write, &mut made);
    }
    handed(made, out, room)
}

// ---- rebuild: parsed and hashed, or only hashed

#[no_mangle]
pub unsafe extern "C" fn rust_rebuild(witness: *const u8, n: usize, out: *mut u8) -> bool {
    let Some(digest) = hash_tree::rebuild(from_raw_parts(witness, n)) else {
        return false;
    };
    from_raw_parts_mut(out, 32).copy_from_slice(&digest);
    true
}

#[no_mangle]
pub unsafe extern "C" fn rust_tree(witness: *const u8, n: usize) -> *mut HashTreeNode {
    Box::into_raw(Box::new(HashTreeNode::parse(from_raw_parts(witness, n), 64).unwrap().0))
}

#[no_mangle]
pub unsafe extern "C" fn rust_digest(tree: *const HashTreeNode, out: *mut u8) {
    from_raw_parts_mut(out, 32).copy_from_slice(&(*tree).digest());
}
