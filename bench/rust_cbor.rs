// A plain Rust exchange between a witness and its CBOR, of the same shape as ours: one walk judges the bytes and counts what the other form
// takes, one writes it; on a refusal the output stays, and nothing is allocated. And the oracle's, which makes a tree and writes that.
#![crate_type = "staticlib"]
#[path = "../oracle/src/cbor.rs"]
#[allow(dead_code)]
mod cbor;
#[path = "../oracle/src/hash_tree.rs"]
#[allow(dead_code)]
mod hash_tree;
#[path = "../oracle/src/sha256.rs"]
mod sha256;
mod calls {
    pub fn hex(bytes: &[u8]) -> String {
        bytes.iter().map(|b| format!("{b:02x}")).collect()
    }
}

use hash_tree::HashTreeNode;
use std::slice::{from_raw_parts, from_raw_parts_mut};

const DEPTH: usize = 64;

fn lawful(kind: u8, n: usize) -> bool {
    match kind {
        0 | 1 => n == 0,
        2 => n <= 48,
        3 => n <= 64,
        4 => n == 32,
        _ => false,
    }
}

/// The record at the front of a witness: its kind, its bytes, and what follows.
fn record(bytes: &[u8]) -> Option<(u8, &[u8], &[u8])> {
    let [a, b, rest @ ..] = bytes else { return None };
    let (kind, n) = (a >> 5, (*a as usize & 31) << 8 | *b as usize);
    if !lawful(kind, n) || rest.len() < n {
        return None;
    }
    let (own, rest) = rest.split_at(n);
    Some((kind, own, rest))
}

/// The same of CBOR.
fn item(bytes: &[u8]) -> Option<(u8, &[u8], &[u8])> {
    let [a, kind, rest @ ..] = bytes else { return None };
    let array = match kind {
        0 => 0x81,
        1 | 2 => 0x83,
        3 | 4 => 0x82,
        _ => return None,
    };
    if *a != array {
        return None;
    }
    if *kind < 2 {
        return Some((*kind, &[], rest));
    }
    let (n, rest) = match rest {
        [h @ 0x40..=0x57, rest @ ..] => (*h as usize - 0x40, rest),
        [0x58, n @ 24..=255, rest @ ..] => (*n as usize, rest),
        _ => return None,
    };
    if !lawful(*kind, n) || rest.len() < n {
        return None;
    }
    let (own, rest) = rest.split_at(n);
    Some((*kind, own, rest))
}

fn size(to_cbor: bool, kind: u8, n: usize) -> usize {
    if !to_cbor || kind < 2 {
        2 + n
    } else if n < 24 {
        3 + n
    } else {
        4 + n
    }
}

/// What follows the tree, and how many bytes its other form has.
fn judged<const TO_CBOR: bool>(bytes: &[u8], depth: usize) -> Option<(&[u8], usize)> {
    if depth == 0 {
        return None;
    }
    let (kind, own, rest) = if TO_CBOR { record(bytes)? } else { item(bytes)? };
    let n = size(TO_CBOR, kind, own.len());
    match kind {
        1 => {
            let (rest, l) = judged::<TO_CBOR>(rest, depth - 1)?;
            let (rest, r) = judged::<TO_CBOR>(rest, depth - 1)?;
            Some((rest, n + l + r))
        }
        2 => {
            let (rest, t) = judged::<TO_CBOR>(rest, depth - 1)?;
            Some((rest, n + t))
        }
        _ => Some((rest, n)),
    }
}

fn put<'a>(to_cbor: bool, kind: u8, own: &[u8], out: &'a mut [u8]) -> &'a mut [u8] {
    let n = own.len();
    let head = size(to_cbor, kind, n) - n;
    let (front, rest) = out.split_at_mut(head + n);
    if to_cbor {
        front[0] = [0x81, 0x83, 0x83, 0x82, 0x82][kind as usize];
        front[1] = kind;
        match head {
            2 => (),
            3 => front[2] = 0x40 + n as u8,
            _ => {
                front[2] = 0x58;
                front[3] = n as u8;
            }
        }
    } else {
        front[0] = kind << 5 | (n >> 8) as u8;
        front[1] = n as u8;
    }
    front[head..].copy_from_slice(own);
    rest
}

fn exchange<const TO_CBOR: bool>(bytes: &[u8], out: &mut [u8]) -> usize {
    let Some((&[], n)) = judged::<TO_CBOR>(bytes, DEPTH) else { return 0 };
    if n > out.len() {
        return 0;
    }
    let (mut from, mut to) = (bytes, out);
    while let Some((kind, own, rest)) = if TO_CBOR { record(from) } else { item(from) } {
        to = put(TO_CBOR, kind, own, to);
        from = rest;
    }
    n
}

/// The length written, 0 where it is refused.
#[no_mangle]
pub unsafe extern "C" fn rust_exchange(to_cbor: bool, bytes: *const u8, n: usize, out: *mut u8, room: usize) -> usize {
    let (bytes, out) = (from_raw_parts(bytes, n), from_raw_parts_mut(out, room));
    if to_cbor { exchange::<true>(bytes, out) } else { exchange::<false>(bytes, out) }
}

/// The same through a tree.
#[no_mangle]
pub unsafe extern "C" fn rust_by_tree(to_cbor: bool, bytes: *const u8, n: usize, out: *mut u8, room: usize) -> usize {
    let bytes = from_raw_parts(bytes, n);
    let parsed = if to_cbor { HashTreeNode::parse(bytes, DEPTH) } else { cbor::take_tree(bytes, DEPTH) };
    let Some((tree, [])) = parsed else { return 0 };
    let mut made = Vec::with_capacity(room);
    if to_cbor { cbor::write(&tree, &mut made) } else { tree.write(&mut made) }
    from_raw_parts_mut(out, room)[..made.len()].copy_from_slice(&made);
    made.len()
}
