//! Build logs: read as document 02 has them, and drawn at random, lawful ones and each of the six faults.
use crate::script::Random;

pub enum Edit<'a> {
    Insert(&'a [u8], &'a [u8]),
    Modify(&'a [u8], &'a [u8]),
    Delete(&'a [u8]),
}

/// The edits of a log, or none where it is malformed.
pub fn edits(log: &[u8]) -> Option<Vec<Edit<'_>>> {
    let mut left = log;
    let mut out = vec![];
    while !left.is_empty() {
        let head = u16::from_be_bytes(left.get(..2)?.try_into().unwrap());
        let (operation, key, value) = (head >> 14, usize::from(head >> 8 & 63), usize::from(head >> 1 & 127));
        if key > 48 || value > 64 || head & 1 == 1 {
            return None;
        }
        let (key, value) = left.get(2..2 + key + value)?.split_at(key);
        out.push(match operation {
            0 => Edit::Insert(key, value),
            1 => Edit::Modify(key, value),
            2 if value.is_empty() => Edit::Delete(key),
            _ => return None,
        });
        left = &left[2 + key.len() + value.len()..];
    }
    Some(out)
}

fn record(operation: usize, key: &[u8], value: &[u8]) -> Vec<u8> {
    let head = [(operation << 6 | key.len()) as u8, (value.len() << 1) as u8];
    [&head[..], key, value].concat()
}

/// One of document 02's faults in place of a record.
fn fault(r: &mut Random, which: usize, good: &[u8]) -> Vec<u8> {
    let (long_key, long_value) = (49 + r.below(15), 65 + r.below(63));
    let (n, m) = (r.below(49), r.below(65));
    match which {
        0 => record(3, &r.bytes(n), &r.bytes(m)),
        1 => record(r.below(2), &r.bytes(long_key), &r.bytes(m)),
        2 => record(r.below(2), &r.bytes(n), &r.bytes(long_value)),
        3 => record(2, &r.bytes(n), &r.bytes(1 + m % 64)),
        4 => {
            let mut bytes = good.to_vec();
            bytes[1] |= 1;
            bytes
        }
        _ => good[..r.below(good.len())].to_vec(),
    }
}

/// A log of up to so many records, with keys and values as they are drawn; half of them faulty at the first, a middle or the last record.
pub fn log(r: &mut Random, most: usize, mut key: impl FnMut(&mut Random) -> Vec<u8>) -> Vec<u8> {
    let mut records: Vec<Vec<u8>> = (0..r.below(most + 1))
        .map(|_| {
            let mut k = key(r);
            k.truncate(48);
            let n = [0, 1, 2, 8, 16, 63, 64][r.below(7)];
            match r.below(8) {
                0..=3 => record(0, &k, &r.bytes(n)),
                4 | 5 => record(1, &k, &r.bytes(n)),
                _ => record(2, &k, &[]),
            }
        })
        .collect();
    if !records.is_empty() && r.chance(2) {
        let at = [0, records.len() / 2, records.len() - 1][r.below(3)];
        let which = r.below(6);
        records[at] = fault(r, which, &records[at]);
        if which == 5 {
            records.truncate(at + 1);
        }
    }
    let mut bytes = records.concat();
    if r.chance(12) {
        let more = 1 + r.below(3);
        bytes.extend(r.bytes(more));
    }
    bytes
}
