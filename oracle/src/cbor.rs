//! Hash trees in CBOR, written and read: RFC 8949's heads, and the Interface Specification's arrays. Plain, and written from those two
//! and document 02: only definite lengths, only the shortest head, no tag.
use crate::calls::hex;
use crate::hash_tree::HashTreeNode;

const DEPTH: usize = 64;

fn head(major: u8, n: usize, out: &mut Vec<u8>) {
    match n {
        0..=23 => out.push(major << 5 | n as u8),
        24..=255 => out.extend([major << 5 | 24, n as u8]),
        _ => unreachable!("no string of a witness is so long"),
    }
}

fn array(kind: usize, n: usize, out: &mut Vec<u8>) {
    head(4, n, out);
    head(0, kind, out);
}

fn string(bytes: &[u8], out: &mut Vec<u8>) {
    head(2, bytes.len(), out);
    out.extend(bytes);
}

pub fn write(tree: &HashTreeNode, out: &mut Vec<u8>) {
    match tree {
        HashTreeNode::Empty() => array(0, 1, out),
        HashTreeNode::Fork(both) => {
            array(1, 3, out);
            write(&both.0, out);
            write(&both.1, out);
        }
        HashTreeNode::Labeled(label, child) => {
            array(2, 3, out);
            string(label, out);
            write(child, out);
        }
        HashTreeNode::Leaf(value) => {
            array(3, 2, out);
            string(value, out);
        }
        HashTreeNode::Pruned(digest) => {
            array(4, 2, out);
            string(digest, out);
        }
    }
}

/// The head at the front: its major type, its number, and what follows.
fn take_head(bytes: &[u8]) -> Option<(u8, u64, &[u8])> {
    let (&first, rest) = bytes.split_first()?;
    let (n, rest, least) = match first & 31 {
        n @ 0..=23 => (n as u64, rest, 0),
        info @ 24..=27 => {
            let width = 1 << (info - 24);
            if rest.len() < width {
                return None;
            }
            let n = rest[..width].iter().fold(0, |n, b| n << 8 | *b as u64);
            (n, &rest[width..], if width == 1 { 24 } else { 1 << (width * 4) })
        }
        _ => return None,
    };
    (n >= least).then_some((first >> 5, n, rest))
}

fn take_string(bytes: &[u8], least: usize, most: usize) -> Option<(&[u8], &[u8])> {
    let (2, n, rest) = take_head(bytes)? else { return None };
    let n = usize::try_from(n).ok()?;
    (least <= n && n <= most && n <= rest.len()).then(|| rest.split_at(n))
}

/// The tree at the front, at most so many records deep, and what follows it.
pub fn take_tree(bytes: &[u8], depth: usize) -> Option<(HashTreeNode, &[u8])> {
    if depth == 0 {
        return None;
    }
    let (4, n, rest) = take_head(bytes)? else { return None };
    let (0, kind, rest) = take_head(rest)? else { return None };
    match (kind, n) {
        (0, 1) => Some((HashTreeNode::Empty(), rest)),
        (1, 3) => {
            let (left, rest) = take_tree(rest, depth - 1)?;
            let (right, rest) = take_tree(rest, depth - 1)?;
            Some((HashTreeNode::Fork(Box::new((left, right))), rest))
        }
        (2, 3) => {
            let (label, rest) = take_string(rest, 0, 48)?;
            let (child, rest) = take_tree(rest, depth - 1)?;
            Some((HashTreeNode::Labeled(label.to_vec(), Box::new(child)), rest))
        }
        (3, 2) => {
            let (value, rest) = take_string(rest, 0, 64)?;
            Some((HashTreeNode::Leaf(value.to_vec()), rest))
        }
        (4, 2) => {
            let (digest, rest) = take_string(rest, 32, 32)?;
            Some((HashTreeNode::Pruned(digest.try_into().ok()?), rest))
        }
        _ => None,
    }
}

fn answer(out: &[u8], room: usize) -> String {
    if out.len() > room {
        return "6 0 - 0".into();
    }
    format!("0 {} {} 0", out.len(), hex(out))
}

pub fn tocbor(witness: &[u8], room: usize) -> String {
    let Some((tree, [])) = HashTreeNode::parse(witness, DEPTH) else { return "9 0 - 0".into() };
    let mut out = vec![];
    write(&tree, &mut out);
    answer(&out, room)
}

pub fn fromcbor(cbor: &[u8], room: usize) -> String {
    let Some((tree, [])) = take_tree(cbor, DEPTH) else { return "12 0 - 0".into() };
    let mut out = vec![];
    tree.write(&mut out);
    answer(&out, room)
}

/// The CBOR of a witness, if it is one.
pub fn of(witness: &[u8]) -> Option<Vec<u8>> {
    let (tree, []) = HashTreeNode::parse(witness, DEPTH)? else { return None };
    let mut out = vec![];
    write(&tree, &mut out);
    Some(out)
}

/// The same tree in CBOR that is lawful and not ours, by which of several ways: a tag in front, a string or an array in a longer head, an array
/// or a string without its length. `at` chooses the place.
pub fn otherwise(cbor: &[u8], way: usize, at: usize) -> Vec<u8> {
    let heads: Vec<usize> = heads(cbor);
    let at = heads[at % heads.len()];
    let (major, n, rest) = take_head(&cbor[at..]).expect("a head stands here");
    let after = cbor.len() - rest.len();
    let longer: Vec<u8> = match way % 5 {
        0 => [&[0xd9, 0xd9, 0xf7], cbor].concat(),
        1 => [&cbor[..at], &[major << 5 | 24, n as u8], rest].concat(),
        2 => [&cbor[..at], &[major << 5 | 25, 0, n as u8], rest].concat(),
        3 if major == 2 => {
            let (own, rest) = rest.split_at(n as usize);
            [&cbor[..at], &[0x5f], &cbor[at..after], own, &[0xff], rest].concat()
        }
        3 => [&[0x9f], &cbor[1..], &[0xff]].concat(),
        _ => [&cbor[..at], &[0xc0], &cbor[at..]].concat(),
    };
    longer
}

/// Where heads stand.
fn heads(cbor: &[u8]) -> Vec<usize> {
    let mut at = 0;
    let mut list = vec![];
    while at < cbor.len() {
        list.push(at);
        let Some((major, n, rest)) = take_head(&cbor[at..]) else { return list };
        at = cbor.len() - rest.len() + if major == 2 { n as usize } else { 0 };
    }
    list
}
