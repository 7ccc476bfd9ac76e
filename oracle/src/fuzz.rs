//! Scripts for `calls` in which any bytes may arrive: stores random or damaged, keys and values of every length, outputs about the
//! witness's length, witnesses random or damaged, lines that are none. After each call stands `sum`, so that a change shows.
use crate::calls::{crossed, hex};
use crate::cbor;
use crate::hash_tree::{empty, fork, labeled, leaf, pruned, HashTree, HashTreeNode};
use crate::lies::damaged;
use crate::logs::log;
use crate::rb_tree::AsHashTree;
use crate::releases::lines;
use crate::script::Random;
use crate::store::Store;

/// Of every length from 0 to 80; one in 200 far above.
fn any_bytes(r: &mut Random) -> Vec<u8> {
    let n = if r.chance(200) { r.below(70_000) } else { r.below(81) };
    let letters = [2, 256][r.below(2)];
    (0..n).map(|_| r.below(letters) as u8).collect()
}

/// A key of the store, one beside it, or any bytes.
fn key(r: &mut Random, store: &Store) -> Vec<u8> {
    let keys: Vec<&Vec<u8>> = store.slots.keys().collect();
    if keys.is_empty() || r.chance(3) {
        return any_bytes(r);
    }
    let mut key = keys[r.below(keys.len())].clone();
    match r.below(6) {
        0 => key.push(r.below(256) as u8),
        1 => {
            key.pop();
        }
        _ => (),
    }
    key
}

/// A sound store that a random history leaves.
fn sound(r: &mut Random) -> Store {
    let capacity = match r.below(60) {
        0 => 1024,
        1 => 60,
        _ => 1 + r.below(9),
    };
    let mut store = Store::fresh(capacity);
    for _ in 0..r.below(3 * capacity.min(40) + 1) {
        let (n, letters) = (r.below(49), [2, 256][r.below(2)]);
        let key: Vec<u8> = (0..n).map(|_| r.below(letters) as u8).collect();
        let n = r.below(65);
        store.insert(&key, &r.bytes(n));
        if r.chance(3) {
            if let Some(k) = store.slots.keys().nth(r.below(capacity)).cloned() {
                store.delete(&k);
            }
        }
    }
    store
}

/// A tree nested so deep, the outermost record counted.
fn nested(r: &mut Random, depth: usize) -> HashTree {
    let mut tree = if r.chance(2) { empty() } else { leaf(r.bytes(3)) };
    for _ in 1..depth {
        tree = match r.below(3) {
            0 => labeled(r.bytes(2), tree),
            1 => fork(tree, empty()),
            _ => fork(pruned([7; 32]), tree),
        };
    }
    tree
}

/// A forest as other makers may write one: labels mostly rising, parts hidden, leaves where none may stand.
fn forest(r: &mut Random, depth: usize, least: &mut u8) -> HashTree {
    match r.below(if depth == 0 { 6 } else { 12 }) {
        0 => empty(),
        1 => pruned([r.below(3) as u8; 32]),
        2 if r.chance(4) => leaf(r.bytes(1)),
        2..=5 => {
            *least = least.wrapping_add([0, 1, 1, 1, 2, 2][r.below(6)]);
            let child = if depth == 0 || r.chance(2) { leaf(r.bytes(2)) } else { forest(r, depth - 1, &mut 0) };
            labeled(vec![*least; r.below(3)], child)
        }
        _ => fork(forest(r, depth - 1, least), forest(r, depth - 1, least)),
    }
}

/// The tree with some parts cut to their digests.
fn cut(r: &mut Random, tree: HashTreeNode) -> HashTreeNode {
    if r.chance(6) {
        return HashTreeNode::Pruned(tree.digest());
    }
    match tree {
        HashTreeNode::Fork(both) => HashTreeNode::Fork(Box::new((cut(r, both.0), cut(r, both.1)))),
        HashTreeNode::Labeled(label, child) => HashTreeNode::Labeled(label, Box::new(cut(r, *child))),
        other => other,
    }
}

/// Lines about witnesses alone: two of one tree, of two trees, damaged ones; asked, merged, in parts.
fn reading(r: &mut Random, store: &Store) -> Vec<String> {
    let tree = if r.chance(3) { store.map.as_hash_tree().root } else { forest(r, 5, &mut 0).root };
    let mut pair = [cut(r, tree.clone()), cut(r, tree)].map(|tree| {
        let mut out = vec![];
        tree.write(&mut out);
        out
    });
    if r.chance(3) {
        pair[0] = witness(r, store);
    } else if r.chance(6) {
        turn_bit(r, &mut pair[1]);
    }
    let [one, other] = pair;
    match r.below(6) {
        4 => {
            let room = [131_072, one.len() + r.below(3), one.len() * 3 / 2][r.below(3)];
            vec![format!("room {}", room.min(131_072)), format!("tocbor {}", hex(&one))]
        }
        5 => {
            let whole = cbor::of(&other);
            let lawful = whole.is_some();
            let mut bytes = whole.unwrap_or(one);
            match r.below(9) {
                0 => turn_bit(r, &mut bytes),
                1 => bytes.truncate(r.below(bytes.len() + 1)),
                2 => bytes.extend(record(r)),
                3 => bytes = any_bytes(r),
                way @ 4..=6 if lawful => bytes = cbor::otherwise(&bytes, way, r.below(1000)),
                _ => (),
            }
            let room = [131_072, bytes.len(), other.len(), r.below(bytes.len() + 2)][r.below(4)];
            vec![format!("room {}", room.min(131_072)), format!("fromcbor {}", hex(&bytes))]
        }
        0 => {
            let room = [131_072, one.len(), other.len(), one.len() + 1, r.below(one.len() + 2)][r.below(5)];
            vec![format!("room {}", room.min(131_072)), format!("merge {} {}", hex(&one), hex(&other))]
        }
        1 => {
            let at = r.below(one.len() + 1);
            vec!["begin".into(), format!("part {}", hex(&one[..at])), "end".into(), format!("part {}", hex(&one[at..])), "end".into()]
        }
        _ => {
            let letter = r.below(8) as u8;
            let k = if r.chance(2) { key(r, store) } else { vec![letter; r.below(3)] };
            vec![format!("ask {} {}", hex(&one), hex(&k))]
        }
    }
}

/// A record of any kind and length, with as many bytes or fewer or more.
fn record(r: &mut Random) -> Vec<u8> {
    let length = if r.chance(8) { r.below(8192) } else { r.below(70) };
    let mut bytes = ((r.below(8) << 13 | length) as u16).to_be_bytes().to_vec();
    let n = [length, length, length + r.below(3), length.saturating_sub(1 + r.below(3))][r.below(4)];
    bytes.extend(r.bytes(n));
    bytes
}

fn turn_bit(r: &mut Random, bytes: &mut [u8]) {
    if !bytes.is_empty() {
        let at = r.below(bytes.len());
        bytes[at] ^= 1 << r.below(8);
    }
}

/// A witness to rebuild: right, damaged, cut, with more after it, about 64 deep, or made of any records.
fn witness(r: &mut Random, store: &Store) -> Vec<u8> {
    let node = |tree: HashTree| {
        let mut out = vec![];
        let root: HashTreeNode = tree.root;
        root.write(&mut out);
        out
    };
    let mut bytes = match r.below(5) {
        0 => {
            let depth = [1, 2, 63, 64, 65, 66, 200][r.below(7)];
            node(nested(r, depth))
        }
        1 => (0..1 + r.below(5)).flat_map(|_| record(r)).collect(),
        2 => any_bytes(r),
        3 => node(store.map.keys()),
        _ => node(store.map.as_hash_tree()),
    };
    match r.below(6) {
        0 => turn_bit(r, &mut bytes),
        1 => bytes.truncate(r.below(bytes.len() + 1)),
        2 => bytes.extend(record(r)),
        _ => (),
    }
    bytes
}

/// A witness call, and an output about as long as what a sound store answers.
fn shown(r: &mut Random, store: &Store) -> [String; 2] {
    let (mut a, mut b) = (key(r, store), key(r, store));
    if a > b && !r.chance(2) {
        (a, b) = (b, a);
    }
    let lawful = a.len() <= 48 && b.len() <= 48 && !crossed(store, &a, &b);
    let call = r.below(6);
    let tree = match call {
        0 => store.map.as_hash_tree(),
        1 => store.map.keys(),
        2 => store.map.witness(&a),
        3 if lawful => store.map.key_range(&a, &b),
        4 if lawful => store.map.value_range(&a, &b),
        3 | 4 => store.map.keys(),
        _ => store.map.keys_with_prefix(&a),
    };
    let mut out = vec![];
    tree.root.write(&mut out);
    let n = out.len();
    let room = [0, r.below(n + 1), n - 1, n, n, n, n + 1, n + r.below(300), 131_072][r.below(9)];
    let line = match call {
        0 => "full".into(),
        1 => "keys".into(),
        2 => format!("witness {}", hex(&a)),
        3 => format!("krange {} {}", hex(&a), hex(&b)),
        4 => format!("vrange {} {}", hex(&a), hex(&b)),
        _ => format!("prefix {}", hex(&a)),
    };
    [format!("room {}", room.min(131_072)), line]
}

/// A line that is none, or one that breaks a rule of its words.
fn broken(r: &mut Random) -> Vec<u8> {
    let words = ["insert", "replay", "load", "poke", "room", "create", "get", "krange", "sum", "rebuild", "61", "6", "-", "", "zz", "6G", "99999999999999999999", "first"];
    match r.below(8) {
        0 => {
            let n = r.below(40);
            r.bytes(n).into_iter().filter(|b| *b != b'\n').collect()
        }
        1 => b"insert 61  62".to_vec(),
        2 => b"create 18446744073709551616".to_vec(),
        3 => b"poke 153609 61".to_vec(),
        4 if r.chance(40) => vec![b'6'; 320_000 + r.below(3)],
        _ => {
            let some: Vec<&str> = (0..r.below(6)).map(|_| words[r.below(words.len())]).collect();
            some.join(" ").into_bytes()
        }
    }
}

/// A call on whatever the store is.
fn call(r: &mut Random, store: &Store) -> String {
    let k = hex(&key(r, store));
    match r.below(14) {
        0 | 1 | 2 => format!("insert {k} {}", hex(&any_bytes(r))),
        3 => format!("modify {k} {}", hex(&any_bytes(r))),
        4 | 5 => format!("delete {k}"),
        6 => format!("get {k}"),
        7 => format!("next {k}"),
        8 => "first".into(),
        9 => "count".into(),
        10 => "empty".into(),
        11 => "root".into(),
        12 => {
            let bytes = if r.chance(6) { any_bytes(r) } else { log(r, 12, |r| key(r, store)) };
            format!("replay {}", hex(&bytes))
        }
        _ => {
            let capacities = [0, 1, 2, store.capacity, store.capacity, 1024, 1025, 2047, usize::MAX, r.below(1 << 30)];
            format!("create {}", capacities[r.below(capacities.len())])
        }
    }
}

fn message(r: &mut Random) -> Vec<u8> {
    let n = if r.chance(50) { [65_535, 65_536, 65_537, 100_000][r.below(4)] } else { r.below(200) };
    r.bytes(n)
}

/// The store beside the other, which an earlier round left, or a copy with an entry changed; with an output about as long as the list.
fn beside(r: &mut Random, store: &Store) -> Vec<String> {
    let mut copy = Store::fresh((store.slots.len() + r.below(3)).clamp(1, 1024));
    for key in store.slots.keys() {
        let mut value = store.map.get(key).unwrap().clone();
        if r.chance(8) {
            turn_bit(r, &mut value);
        }
        copy.insert(key, &value);
    }
    let n = lines(store.map.iter(), copy.map.iter()).len();
    let mut out = vec![format!("room {}", [n, n, n.saturating_sub(1), r.below(n + 1), 131_072][r.below(5)])];
    if r.chance(2) {
        let bytes = if r.chance(4) { damaged(r, copy.bytes()) } else { copy.bytes() };
        out.extend(["swap".into(), format!("load {}", hex(&bytes)), "sum".into(), "diff".into(), "sum".into(), "swap".into()]);
    }
    out.extend(["sum".into(), "diff".into(), "sum".into()]);
    out
}

/// A script of about so many lines.
pub fn script(seed: u64, lines: usize) -> Vec<Vec<u8>> {
    let mut r = Random::new(seed);
    let mut out: Vec<Vec<u8>> = vec![];
    while out.len() < lines {
        let store = sound(&mut r);
        let bytes = damaged(&mut r, store.bytes());
        out.push(format!("load {}", hex(&bytes)).into_bytes());
        out.push("sum".into());
        if r.chance(3) {
            out.extend(beside(&mut r, &store).into_iter().map(String::into_bytes));
        }
        let calls = if bytes.len() > 20_000 { 4 } else { 8 };
        for _ in 0..calls {
            match r.below(20) {
                0..=8 => out.push(call(&mut r, &store).into_bytes()),
                9..=14 => out.extend(shown(&mut r, &store).map(String::into_bytes)),
                15 | 16 => out.push(format!("rebuild {}", hex(&witness(&mut r, &store))).into_bytes()),
                17 => out.extend(reading(&mut r, &store).into_iter().map(String::into_bytes)),
                18 if r.chance(2) => out.push(format!("hash {}", hex(&message(&mut r))).into_bytes()),
                _ => out.push(broken(&mut r)),
            }
            out.push("sum".into());
        }
    }
    out
}
