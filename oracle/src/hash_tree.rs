//! A stand-in for the crate's `hash_tree`, written from the Internet Computer Interface Specification: the module itself
//! can't be had. It has what `rb_tree` uses, and the written form of document 01.
use crate::sha256::sha256;
use std::borrow::Cow;
use std::cell::RefCell;
use std::collections::HashMap;

pub type Hash = [u8; 32];

#[derive(Debug, Clone, PartialEq)]
pub enum HashTreeNode {
    Empty(),
    Fork(Box<(HashTreeNode, HashTreeNode)>),
    Labeled(Vec<u8>, Box<HashTreeNode>),
    Leaf(Vec<u8>),
    Pruned(Hash),
}

#[derive(Debug, Clone, PartialEq)]
pub struct HashTree {
    pub root: HashTreeNode,
}

fn tag(text: &str) -> Vec<u8> {
    let mut bytes = vec![text.len() as u8];
    bytes.extend(text.bytes());
    bytes
}

thread_local! {
    /// What was hashed to get a digest, where `remember` was called.
    static TERMS: RefCell<Option<HashMap<Hash, String>>> = const { RefCell::new(None) };
}

/// From here on each digest is kept with what was hashed to get it.
pub fn remember() {
    TERMS.set(Some(HashMap::new()));
}

/// A digest as what it is the hash of, in the words of crates/hash_tree/specs.
pub fn term(digest: &Hash) -> String {
    TERMS.with_borrow(|terms| terms.as_ref().unwrap()[digest].clone())
}

fn kept(digest: Hash, say: impl FnOnce() -> String) -> Hash {
    if TERMS.with_borrow(|terms| terms.is_some()) {
        let said = say();
        TERMS.with_borrow_mut(|terms| terms.as_mut().unwrap().insert(digest, said));
    }
    digest
}

pub fn list(bytes: &[u8]) -> String {
    let items: String = bytes.iter().map(|b| format!("{b} ∷ ")).collect();
    format!("({items}[])")
}

pub fn fork_hash(l: &Hash, r: &Hash) -> Hash {
    let digest = sha256(&[&tag("ic-hashtree-fork"), l, r]);
    kept(digest, || format!("(forkHash {} {})", term(l), term(r)))
}

pub fn labeled_hash(label: &[u8], child: &Hash) -> Hash {
    let digest = sha256(&[&tag("ic-hashtree-labeled"), label, child]);
    kept(digest, || format!("(labeledHash {} {})", list(label), term(child)))
}

pub fn leaf_hash(value: &[u8]) -> Hash {
    let digest = sha256(&[&tag("ic-hashtree-leaf"), value]);
    kept(digest, || format!("(leafHash {})", list(value)))
}

pub fn empty_hash() -> Hash {
    kept(sha256(&[&tag("ic-hashtree-empty")]), || "emptyHash".into())
}

pub fn empty() -> HashTree {
    HashTree { root: HashTreeNode::Empty() }
}

pub fn fork(l: HashTree, r: HashTree) -> HashTree {
    HashTree { root: HashTreeNode::Fork(Box::new((l.root, r.root))) }
}

pub fn labeled<L: AsRef<[u8]>>(label: L, child: HashTree) -> HashTree {
    HashTree { root: HashTreeNode::Labeled(label.as_ref().to_vec(), Box::new(child.root)) }
}

pub fn leaf<'a, C: Into<Cow<'a, [u8]>>>(value: C) -> HashTree {
    HashTree { root: HashTreeNode::Leaf(value.into().into_owned()) }
}

pub fn pruned(digest: Hash) -> HashTree {
    HashTree { root: HashTreeNode::Pruned(digest) }
}

impl HashTree {
    pub fn digest(&self) -> Hash {
        self.root.digest()
    }
}

impl HashTreeNode {
    pub fn digest(&self) -> Hash {
        match self {
            HashTreeNode::Empty() => empty_hash(),
            HashTreeNode::Fork(both) => fork_hash(&both.0.digest(), &both.1.digest()),
            HashTreeNode::Labeled(label, child) => labeled_hash(label, &child.digest()),
            HashTreeNode::Leaf(value) => leaf_hash(value),
            HashTreeNode::Pruned(digest) => *digest,
        }
    }

    /// Document 01's written form, parent first: 3 bits of kind, 13 of length, the bytes, the children.
    pub fn write(&self, out: &mut Vec<u8>) {
        let mut record = |kind: u16, bytes: &[u8]| {
            out.extend((kind << 13 | bytes.len() as u16).to_be_bytes());
            out.extend(bytes);
        };
        match self {
            HashTreeNode::Empty() => record(0, &[]),
            HashTreeNode::Fork(both) => {
                record(1, &[]);
                both.0.write(out);
                both.1.write(out);
            }
            HashTreeNode::Labeled(label, child) => {
                record(2, label);
                child.write(out);
            }
            HashTreeNode::Leaf(value) => record(3, value),
            HashTreeNode::Pruned(digest) => record(4, digest),
        }
    }

    /// One tree at the front of the bytes, at most `depth` records deep, and what follows it.
    pub fn parse(bytes: &[u8], depth: usize) -> Option<(HashTreeNode, &[u8])> {
        if depth == 0 || bytes.len() < 2 {
            return None;
        }
        let head = u16::from_be_bytes([bytes[0], bytes[1]]);
        let (kind, length) = (head >> 13, (head & 0x1fff) as usize);
        let lawful = match kind {
            0 | 1 => length == 0,
            2 => length <= 48,
            3 => length <= 64,
            4 => length == 32,
            _ => false,
        };
        if !lawful || bytes.len() - 2 < length {
            return None;
        }
        let (body, rest) = bytes[2..].split_at(length);
        match kind {
            0 => Some((HashTreeNode::Empty(), rest)),
            1 => {
                let (left, rest) = Self::parse(rest, depth - 1)?;
                let (right, rest) = Self::parse(rest, depth - 1)?;
                Some((HashTreeNode::Fork(Box::new((left, right))), rest))
            }
            2 => {
                let (child, rest) = Self::parse(rest, depth - 1)?;
                Some((HashTreeNode::Labeled(body.to_vec(), Box::new(child)), rest))
            }
            3 => Some((HashTreeNode::Leaf(body.to_vec()), rest)),
            _ => Some((HashTreeNode::Pruned(body.try_into().unwrap()), rest)),
        }
    }
}

/// The digest of the one witness that the bytes are, if they are one.
pub fn rebuild(bytes: &[u8]) -> Option<Hash> {
    match HashTreeNode::parse(bytes, 64) {
        Some((tree, [])) => Some(tree.digest()),
        _ => None,
    }
}
