//! Calls on witnesses and no store: asking for one key, merging two, rebuilding in parts. Written from the Interface Specification and
//! document 02; an accepted merge is the customer's own `merge_hash_trees`.
use crate::calls::hex;
use crate::hash_tree::{rebuild, HashTree, HashTreeNode};
use crate::nested::merge_hash_trees;

const DEPTH: usize = 64;

fn whole(bytes: &[u8]) -> Option<HashTreeNode> {
    match HashTreeNode::parse(bytes, DEPTH) {
        Some((tree, [])) => Some(tree),
        _ => None,
    }
}

fn length(tree: &HashTreeNode) -> usize {
    let mut out = vec![];
    tree.write(&mut out);
    out.len()
}

/// flatten_forks, each element with its place in the written form.
fn flatten<'a>(tree: &'a HashTreeNode, at: usize, list: &mut Vec<(&'a HashTreeNode, usize)>) {
    match tree {
        HashTreeNode::Empty() => (),
        HashTreeNode::Fork(both) => {
            flatten(&both.0, at + 2, list);
            flatten(&both.1, at + 2 + length(&both.0), list);
        }
        _ => list.push((tree, at)),
    }
}

fn flat(tree: &HashTreeNode) -> Vec<(&HashTreeNode, usize)> {
    let mut list = vec![];
    flatten(tree, 0, &mut list);
    list
}

fn well_formed(tree: &HashTreeNode) -> bool {
    if let HashTreeNode::Leaf(_) = tree {
        return true;
    }
    let list = flat(tree);
    let mut labels: Vec<&[u8]> = vec![];
    for (element, _) in &list {
        match element {
            HashTreeNode::Leaf(_) => return false,
            HashTreeNode::Labeled(label, child) => {
                if !well_formed(child) {
                    return false;
                }
                labels.push(label);
            }
            _ => (),
        }
    }
    labels.windows(2).all(|two| two[0] < two[1])
}

pub fn ask(witness: &[u8], key: &[u8]) -> String {
    if key.len() > 48 {
        return "2 refused 0 0".into();
    }
    let Some(tree) = whole(witness) else { return "9 refused 0 0".into() };
    if !well_formed(&tree) {
        return "11 refused 0 0".into();
    }
    let list = flat(&tree);
    let label = |n: usize| match list.get(n) {
        Some((HashTreeNode::Labeled(label, _), _)) => Some(label.as_slice()),
        _ => None,
    };
    for (element, at) in &list {
        if let HashTreeNode::Labeled(label, child) = element {
            if label == key {
                return format!("0 found {} {}", at + 2 + label.len(), length(child));
            }
        }
    }
    let lone_leaf = matches!(list[..], [(HashTreeNode::Leaf(_), _)]);
    let first = label(0).is_some_and(|a| key < a);
    let last = list.len() > 0 && label(list.len() - 1).is_some_and(|b| b < key);
    let between = (1..list.len()).any(|n| label(n - 1).is_some_and(|a| a < key) && label(n).is_some_and(|b| key < b));
    if list.is_empty() || lone_leaf || first || last || between {
        return "0 absent 0 0".into();
    }
    "0 unknown 0 0".into()
}

/// Whether document 02's merge accepts the pair.
fn agree(a: &HashTreeNode, b: &HashTreeNode) -> bool {
    use HashTreeNode::*;
    a.digest() == b.digest()
        && match (a, b) {
            (Pruned(_), _) | (_, Pruned(_)) | (Empty(), Empty()) => true,
            (Leaf(v), Leaf(w)) => v == w,
            (Labeled(k, c), Labeled(l, d)) => k == l && agree(c, d),
            (Fork(p), Fork(q)) => agree(&p.0, &q.0) && agree(&p.1, &q.1),
            _ => false,
        }
}

pub fn merge(one: &[u8], other: &[u8], room: usize) -> String {
    let (Some(a), Some(b)) = (whole(one), whole(other)) else { return "9 0 - 0".into() };
    if !agree(&a, &b) {
        return "15 0 - 0".into();
    }
    let mut out = vec![];
    merge_hash_trees(HashTree { root: a }, HashTree { root: b }).root.write(&mut out);
    if out.len() > room {
        return "6 0 - 0".into();
    }
    format!("0 {} {} 0", out.len(), hex(&out))
}

/// How far the bytes go towards one tree, with so many records of depth left.
enum Front<'a> {
    Whole(&'a [u8]),
    More,
    Never,
}

fn front(bytes: &[u8], depth: usize) -> Front<'_> {
    let Some(&head) = bytes.first() else { return Front::More };
    let kind = head >> 5;
    if kind > 4 || head & 0x1f != 0 || (matches!(kind, 1 | 2) && depth == 1) {
        return Front::Never;
    }
    let Some(&size) = bytes.get(1) else { return Front::More };
    let size = size as usize;
    let lawful = match kind {
        0 | 1 => size == 0,
        2 => size <= 48,
        3 => size <= 64,
        _ => size == 32,
    };
    if !lawful {
        return Front::Never;
    }
    if bytes.len() - 2 < size {
        return Front::More;
    }
    let rest = &bytes[2 + size..];
    match kind {
        1 => match front(rest, depth - 1) {
            Front::Whole(rest) => front(rest, depth - 1),
            other => other,
        },
        2 => front(rest, depth - 1),
        _ => Front::Whole(rest),
    }
}

/// A rebuild in parts: all the bytes so far.
#[derive(Default)]
pub struct Parts(Vec<u8>);

impl Parts {
    pub fn begin(&mut self) -> String {
        self.0.clear();
        "ok".into()
    }

    pub fn part(&mut self, bytes: &[u8]) -> String {
        self.0.extend(bytes);
        match front(&self.0, DEPTH) {
            Front::Whole([]) | Front::More => "0".into(),
            _ => "9".into(),
        }
    }

    pub fn end(&self) -> String {
        match rebuild(&self.0) {
            None => format!("9 {}", hex(&[0; 32])),
            Some(digest) => format!("0 {}", hex(&digest)),
        }
    }
}
