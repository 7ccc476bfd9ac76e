//! The lent store of document 01 around the Rust's map: layout, soundness, slots and the free chain, written from the
//! document and independent of what it is held beside.
use crate::hash_tree::{fork_hash, labeled_hash, leaf_hash};
use crate::rb_tree::inspect::{build, next_on_right, view, Map, View};
use std::collections::{BTreeMap, HashSet};

pub const HEADER: usize = 8;
pub const SLOT: usize = 150;

/// A sound store: its capacity, its map, the slot of each key, and the free slots from the chain's head on.
pub struct Store {
    pub capacity: usize,
    pub map: Map,
    pub slots: BTreeMap<Vec<u8>, usize>,
    pub free: Vec<usize>,
}

/// The bits of `bytes` from bit `from` on, most significant first.
pub fn bits(bytes: &[u8], from: usize, width: usize) -> usize {
    (from..from + width).fold(0, |sum, i| sum * 2 + (bytes[i / 8] >> (7 - i % 8) & 1) as usize)
}

fn put_bits(bytes: &mut [u8], from: usize, width: usize, value: usize) {
    for i in 0..width {
        if value >> (width - 1 - i) & 1 == 1 {
            bytes[(from + i) / 8] |= 1 << (7 - (from + i) % 8);
        }
    }
}

pub fn place(slot: usize) -> usize {
    HEADER + SLOT * (slot - 1)
}

fn zero(bytes: &[u8]) -> bool {
    bytes.iter().all(|b| *b == 0)
}

struct Judge<'a> {
    bytes: &'a [u8],
    capacity: usize,
    seen: HashSet<usize>,
    slots: BTreeMap<Vec<u8>, usize>,
    last: Option<Vec<u8>>,
}

impl Judge<'_> {
    /// The tree at a slot and its black nodes on each path, if it is lawful.
    fn tree(&mut self, slot: usize) -> Option<(Option<Box<View>>, usize)> {
        if slot == 0 {
            return Some((None, 0));
        }
        if slot > self.capacity || !self.seen.insert(slot) {
            return None;
        }
        let s = &self.bytes[place(slot)..place(slot) + SLOT];
        let (live, red) = (bits(s, 0, 1), bits(s, 1, 1) == 1);
        let (left, right) = (bits(s, 2, 11), bits(s, 13, 11));
        let (key_length, value_length) = (bits(s, 24, 6), bits(s, 30, 7));
        if live != 1 || bits(s, 37, 11) != 0 || key_length > 48 || value_length > 64 {
            return None;
        }
        let (key, value, digest) = (&s[6..54], &s[54..118], &s[118..150]);
        if !zero(&key[key_length..]) || !zero(&value[value_length..]) {
            return None;
        }
        let (key, value) = (key[..key_length].to_vec(), value[..value_length].to_vec());
        let (left, left_blacks) = self.tree(left)?;
        if self.last.as_ref().is_some_and(|last| *last >= key) {
            return None;
        }
        self.last = Some(key.clone());
        let (right, right_blacks) = self.tree(right)?;
        let is_red = |v: &Option<Box<View>>| v.as_ref().is_some_and(|v| v.red);
        if left_blacks != right_blacks || is_red(&right) || red && is_red(&left) {
            return None;
        }
        let own = labeled_hash(&key, &leaf_hash(&value));
        let right_way = match (&left, &right) {
            (None, None) => own,
            (Some(l), None) => fork_hash(&l.digest, &own),
            (None, Some(r)) => fork_hash(&own, &r.digest),
            (Some(l), Some(r)) => fork_hash(&l.digest, &fork_hash(&own, &r.digest)),
        };
        if digest != right_way {
            return None;
        }
        self.slots.insert(key.clone(), slot);
        let blacks = left_blacks + if red { 0 } else { 1 };
        Some((Some(Box::new(View { key, value, red, digest: right_way, left, right })), blacks))
    }
}

/// The store that the bytes are, if they are sound.
pub fn judge(bytes: &[u8]) -> Option<Store> {
    if bytes.len() < HEADER {
        return None;
    }
    let capacity = bits(bytes, 4, 11);
    let (live, root, head) = (bits(bytes, 15, 11), bits(bytes, 26, 11), bits(bytes, 37, 11));
    if bits(bytes, 0, 4) != 1 || bits(bytes, 48, 16) != 0 || !(1..=1024).contains(&capacity) || bytes.len() != HEADER + SLOT * capacity {
        return None;
    }
    let mut judge = Judge { bytes, capacity, seen: HashSet::new(), slots: BTreeMap::new(), last: None };
    let (tree, _) = judge.tree(root)?;
    if tree.as_ref().is_some_and(|t| t.red) || judge.slots.len() != live {
        return None;
    }
    let mut free = vec![];
    let mut at = head;
    while at != 0 {
        if at > capacity || !judge.seen.insert(at) {
            return None;
        }
        let s = &bytes[place(at)..place(at) + SLOT];
        if bits(s, 0, 2) != 0 || bits(s, 13, 35) != 0 || !zero(&s[6..]) {
            return None;
        }
        free.push(at);
        at = bits(s, 2, 11);
    }
    if judge.seen.len() != capacity {
        return None;
    }
    Some(Store { capacity, map: build(tree), slots: judge.slots, free })
}

impl Store {
    pub fn fresh(capacity: usize) -> Store {
        Store { capacity, map: Map::new(), slots: BTreeMap::new(), free: (1..=capacity).collect() }
    }

    pub fn insert(&mut self, key: &[u8], value: &[u8]) -> bool {
        if !self.slots.contains_key(key) {
            if self.free.is_empty() {
                return false;
            }
            self.slots.insert(key.to_vec(), self.free.remove(0));
        }
        self.map.insert(key.to_vec(), value.to_vec());
        true
    }

    pub fn modify(&mut self, key: &[u8], value: &[u8]) {
        self.map.modify(key, |v| *v = value.to_vec());
    }

    pub fn delete(&mut self, key: &[u8]) {
        let own = self.slots[key];
        let freed = match next_on_right(&self.map, key) {
            Some(next) => self.slots.insert(next, own).unwrap(),
            None => own,
        };
        self.slots.remove(key);
        self.free.insert(0, freed);
        self.map.delete(key);
    }

    fn put(&self, tree: &Option<Box<View>>, bytes: &mut [u8]) -> usize {
        let Some(n) = tree else { return 0 };
        let (left, right) = (self.put(&n.left, bytes), self.put(&n.right, bytes));
        let slot = self.slots[&n.key];
        let s = &mut bytes[place(slot)..place(slot) + SLOT];
        put_bits(s, 0, 1, 1);
        put_bits(s, 1, 1, n.red as usize);
        put_bits(s, 2, 11, left);
        put_bits(s, 13, 11, right);
        put_bits(s, 24, 6, n.key.len());
        put_bits(s, 30, 7, n.value.len());
        s[6..6 + n.key.len()].copy_from_slice(&n.key);
        s[54..54 + n.value.len()].copy_from_slice(&n.value);
        s[118..150].copy_from_slice(&n.digest);
        slot
    }

    pub fn bytes(&self) -> Vec<u8> {
        let mut bytes = vec![0; HEADER + SLOT * self.capacity];
        let root = self.put(&view(&self.map), &mut bytes);
        put_bits(&mut bytes, 0, 4, 1);
        put_bits(&mut bytes, 4, 11, self.capacity);
        put_bits(&mut bytes, 15, 11, self.slots.len());
        put_bits(&mut bytes, 26, 11, root);
        put_bits(&mut bytes, 37, 11, self.free.first().copied().unwrap_or(0));
        for pair in self.free.windows(2) {
            put_bits(&mut bytes[place(pair[0])..], 2, 11, pair[1]);
        }
        bytes
    }
}
