//! Two releases: the lines between them, from the Rust's own iterators; and, for the random scripts, a store's map made anew in another store.
use crate::calls::hex;
use crate::script::Random;
use std::collections::BTreeMap;

pub type Pairs = Vec<(Vec<u8>, Vec<u8>)>;

fn each(map: &Pairs) -> impl Iterator<Item = (&Vec<u8>, &Vec<u8>)> {
    map.iter().map(|(key, value)| (key, value))
}

/// A line for each key that is only in the old (1), only in the new (2), or in both with another value (3): 2 bits of kind, 6 bits of key length, the key.
pub fn lines<'a>(old: impl Iterator<Item = (&'a Vec<u8>, &'a Vec<u8>)>, new: impl Iterator<Item = (&'a Vec<u8>, &'a Vec<u8>)>) -> Vec<u8> {
    let mut both: BTreeMap<&Vec<u8>, (Option<&Vec<u8>>, Option<&Vec<u8>>)> = BTreeMap::new();
    old.for_each(|(key, value)| both.entry(key).or_default().0 = Some(value));
    new.for_each(|(key, value)| both.entry(key).or_default().1 = Some(value));
    let mut out = vec![];
    for (key, values) in both {
        let kind = match values {
            (Some(_), None) => 1,
            (None, Some(_)) => 2,
            (old, new) if old != new => 3,
            _ => continue,
        };
        out.push(kind << 6 | key.len() as u8);
        out.extend(key);
    }
    out
}

/// The map with a few entries taken out, changed or put in; one in four times none.
fn near(r: &mut Random, map: &Pairs) -> Pairs {
    let mut near = map.clone();
    for _ in 0..[0, 1, 1, 2 + r.below(9)][r.below(4)] {
        let at = r.below(near.len() + 1);
        if at == near.len() {
            let n = r.below(49);
            let key = r.bytes(n);
            if !near.iter().any(|e| e.0 == key) {
                near.push((key, vec![1]));
            }
        } else if r.chance(2) {
            near.remove(at);
        } else {
            let value = &mut near[at].1;
            match r.below(3) {
                0 if value.len() < 64 => value.push(0),
                1 if !value.is_empty() => value.truncate(value.len() - 1),
                _ => *value = r.bytes(value.len()),
            }
        }
    }
    near
}

/// Makes a map near this one in the other store, in another order, and asks for the difference both ways, with room to the byte and a byte less.
pub fn releases(r: &mut Random, map: &Pairs, room: usize) -> Vec<String> {
    let other = near(r, map);
    let mut left = other.clone();
    let capacity = (left.len() + r.below(4)).clamp(1, 1024);
    let mut out = vec!["swap".to_string(), format!("buffer {}", 8 + 150 * capacity), format!("create {capacity}")];
    while !left.is_empty() {
        let (key, value) = left.swap_remove(r.below(left.len()));
        out.push(format!("insert {} {}", hex(&key), hex(&value)));
    }
    let n = lines(each(map), each(&other)).len();
    out.push("diff".into());
    out.push("swap".into());
    for length in [n, n.saturating_sub(1), room] {
        out.push(format!("room {length}"));
        out.push("diff".into());
    }
    out
}
