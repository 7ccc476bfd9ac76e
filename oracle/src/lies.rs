//! Damaged stores: random bytes, bits turned, fields overwritten, slots swapped, cut short or long, and lies whose digests are
//! right, so that every rule of soundness is met by stores that break it alone.
use crate::hash_tree::{fork_hash, labeled_hash, leaf_hash, Hash};
use crate::script::Random;
use crate::store::{bits, place, HEADER, SLOT};

/// A slot's fields: where each begins and how wide it is.
const SLOT_FIELDS: [(usize, usize); 7] = [(0, 1), (1, 1), (2, 11), (13, 11), (24, 6), (30, 7), (37, 11)];

const HEADER_FIELDS: [(usize, usize); 6] = [(0, 4), (4, 11), (15, 11), (26, 11), (37, 11), (48, 16)];

fn set_bits(bytes: &mut [u8], from: usize, width: usize, value: usize) {
    for i in 0..width {
        let (at, bit) = ((from + i) / 8, 1 << (7 - (from + i) % 8));
        bytes[at] &= !bit;
        if value >> (width - 1 - i) & 1 == 1 {
            bytes[at] |= bit;
        }
    }
}

fn slots(bytes: &[u8]) -> usize {
    bytes.len().saturating_sub(HEADER) / SLOT
}

/// Small numbers and the greatest, which are what slot numbers and lengths go wrong by.
fn value(r: &mut Random, width: usize) -> usize {
    match r.below(4) {
        0 => (1 << width) - 1,
        1 => r.below(1 << width),
        _ => r.below(12) % (1 << width),
    }
}

fn field(r: &mut Random, bytes: &mut [u8]) {
    let n = slots(bytes);
    if n == 0 || r.chance(4) {
        let (from, width) = HEADER_FIELDS[r.below(6)];
        let new = value(r, width);
        set_bits(bytes, from, width, new);
        return;
    }
    let at = place(1 + r.below(n));
    match r.below(9) {
        7 => bytes[at + 6 + r.below(48)] = r.below(256) as u8,
        8 => bytes[at + 54 + r.below(64)] = r.below(256) as u8,
        which => {
            let (from, width) = SLOT_FIELDS[which];
            let new = value(r, width);
            set_bits(&mut bytes[at..], from, width, new);
        }
    }
}

fn swap(r: &mut Random, bytes: &mut [u8]) {
    let n = slots(bytes);
    if n > 1 {
        let (a, b) = (place(1 + r.below(n)), place(1 + r.below(n)));
        for i in 0..SLOT {
            bytes.swap(a + i, b + i);
        }
    }
}

/// Writes the digest that a slot's links and bytes give it, and those below it, as far as they go.
fn digest(bytes: &mut [u8], slot: usize, depth: usize) -> Option<Hash> {
    if slot == 0 || slot > slots(bytes) || depth == 0 {
        return None;
    }
    let at = place(slot);
    let s = bytes[at..at + SLOT].to_vec();
    let left = digest(bytes, bits(&s, 2, 11), depth - 1);
    let right = digest(bytes, bits(&s, 13, 11), depth - 1);
    let (key, value) = (bits(&s, 24, 6).min(48), bits(&s, 30, 7).min(64));
    let own = labeled_hash(&s[6..6 + key], &leaf_hash(&s[54..54 + value]));
    let hash = match (left, right) {
        (None, None) => own,
        (Some(l), None) => fork_hash(&l, &own),
        (None, Some(r)) => fork_hash(&own, &r),
        (Some(l), Some(r)) => fork_hash(&l, &fork_hash(&own, &r)),
    };
    bytes[at + 118..at + SLOT].copy_from_slice(&hash);
    Some(hash)
}

/// A sound store's bytes, damaged or left as they are.
pub fn damaged(r: &mut Random, mut bytes: Vec<u8>) -> Vec<u8> {
    match r.below(12) {
        0 => {
            let n = [r.below(400), bytes.len(), 8, 158][r.below(4)];
            return r.bytes(n);
        }
        1 => return vec![[0, 0xff][r.below(2)]; bytes.len()],
        2 => bytes.truncate(r.below(bytes.len())),
        3 => {
            let n = 1 + r.below(200);
            bytes.extend(r.bytes(n));
        }
        4 => (0..1 + r.below(3)).for_each(|_| {
            let at = r.below(bytes.len());
            bytes[at] ^= 1 << r.below(8);
        }),
        5 => swap(r, &mut bytes),
        6 | 7 => (0..1 + r.below(3)).for_each(|_| field(r, &mut bytes)),
        _ => return bytes,
    }
    if bytes.len() >= HEADER && r.chance(2) {
        let root = bits(&bytes, 26, 11);
        digest(&mut bytes, root, 12);
    }
    bytes
}
