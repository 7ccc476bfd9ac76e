//! Random scripts for `calls`: histories on stores of many capacities, with keys that share fronts, lie side by side or are
//! extreme, refused calls and build logs among them, every witness call at present, absent and extreme bounds, and damaged stores; the witnesses
//! that come out asked, merged, written in CBOR and back, and rebuilt in parts, as they are and damaged; and each store beside one that holds nearly the same.
use crate::calls::{hex, unhex, Calls};
use crate::cbor;
use crate::logs::log;
use crate::releases::releases;

pub struct Random(u64);

impl Random {
    pub fn new(seed: u64) -> Random {
        Random(seed.wrapping_mul(0x9e37_79b9_7f4a_7c15) ^ 0x2545_f491_4f6c_dd1d)
    }

    pub fn below(&mut self, n: usize) -> usize {
        self.0 ^= self.0 << 13;
        self.0 ^= self.0 >> 7;
        self.0 ^= self.0 << 17;
        (self.0.wrapping_mul(0x2545_f491_4f6c_dd1d) >> 33) as usize % n
    }

    pub fn chance(&mut self, one_in: usize) -> bool {
        self.below(one_in) == 0
    }

    pub fn bytes(&mut self, n: usize) -> Vec<u8> {
        (0..n).map(|_| self.below(256) as u8).collect()
    }
}

struct Keys {
    used: Vec<Vec<u8>>,
    letters: usize,
    longest: usize,
}

impl Keys {
    fn fresh(&self, r: &mut Random) -> Vec<u8> {
        let n = r.below(self.longest + 1);
        (0..n).map(|_| [0x61, 0x62, 0x00, 0xff, 0x7f, 0x80][r.below(self.letters)]).collect()
    }

    /// A key that was used, one beside it, a new one, or an extreme one.
    fn any(&mut self, r: &mut Random) -> Vec<u8> {
        if !self.used.is_empty() && !r.chance(3) {
            let mut key = self.used[r.below(self.used.len())].clone();
            match r.below(8) {
                0 => key.push(0),
                1 => {
                    key.pop();
                }
                2 => {
                    if let Some(last) = key.last_mut() {
                        *last = last.wrapping_add(1);
                    }
                }
                _ => (),
            }
            return key;
        }
        match r.below(40) {
            0 => vec![],
            1 => vec![0xff; 48],
            2 => r.bytes(48),
            3 => r.bytes(49),
            4 => {
                let n = 49 + r.below(30);
                r.bytes(n)
            }
            _ => self.fresh(r),
        }
    }

    fn value(&self, r: &mut Random) -> Vec<u8> {
        let n = [0, 1, 2, 3, 4, 8, 31, 32, 33, 63, 64, 64, 65, 90][r.below(14)];
        r.bytes(n)
    }
}

fn query(r: &mut Random, keys: &mut Keys) -> String {
    let a = keys.any(r);
    match r.below(15) {
        0 => "first".into(),
        1 => format!("next {}", hex(&a)),
        2 => "count".into(),
        3 => "empty".into(),
        4 => "root".into(),
        5 => "keys".into(),
        6 => "full".into(),
        7 => format!("witness {}", hex(&a)),
        8 | 9 | 10 | 11 => {
            let b = keys.any(r);
            let (a, b) = if a > b && !r.chance(2) { (b, a) } else { (a, b) };
            format!("{} {} {}", ["krange", "vrange"][r.below(2)], hex(&a), hex(&b))
        }
        12 => format!("prefix {}", hex(&a[..r.below(a.len() + 1)])),
        13 => "diff".into(),
        _ => format!("get {}", hex(&a)),
    }
}

/// A build log, lawful or not; or one that is cut at every byte, the whole of it last. After each the store's sum.
fn replays(r: &mut Random, keys: &mut Keys, capacity: usize) -> Vec<String> {
    let most = [0, 1, 3, 3, 10, 40, 300][r.below(if capacity > 200 { 7 } else { 6 })];
    let bytes = log(r, most, |r| keys.any(r));
    let from = if bytes.len() <= 40 && r.chance(4) { 0 } else { bytes.len() };
    (from..=bytes.len()).flat_map(|n| [format!("replay {}", hex(&bytes[..n])), "sum".into()]).collect()
}

/// Lines about witnesses that were made before: each asked for a key, merged with another, exchanged, cut into parts; some of them damaged.
fn readings(r: &mut Random, keys: &mut Keys, seen: &[Vec<u8>], room: usize) -> Vec<String> {
    let mut witness = seen[r.below(seen.len())].clone();
    match r.below(12) {
        0 => {
            let at = r.below(witness.len());
            witness[at] ^= 1 << r.below(8);
        }
        1 => witness.truncate(r.below(witness.len() + 1)),
        2 => witness.push(r.below(256) as u8),
        3 => {
            let labels = 60 + r.below(6);
            witness = [[0x40, 0x00].repeat(labels), witness].concat();
        }
        _ => (),
    }
    match r.below(5) {
        4 => exchanged(r, &witness, room),
        0 => {
            let other = &seen[r.below(seen.len())];
            vec![format!("merge {} {}", hex(&witness), hex(other))]
        }
        1 => {
            let mut lines = vec!["begin".to_string()];
            let step = [1, 2, 33, 64, 1000][r.below(5)].max(witness.len() / 12);
            let mut left = &witness[..];
            while !left.is_empty() {
                let n = (1 + r.below(step)).min(left.len());
                lines.push(format!("part {}", hex(&left[..n])));
                left = &left[n..];
                if r.chance(9) {
                    lines.push(["part -", "end"][r.below(2)].into());
                }
            }
            lines.push("end".into());
            lines.push(format!("rebuild {}", hex(&witness)));
            lines
        }
        _ => (0..1 + r.below(3)).map(|_| format!("ask {} {}", hex(&witness), hex(&keys.any(r)))).collect(),
    }
}

/// A witness in CBOR and back, and CBOR that is damaged, or lawful and not ours; with room, and without.
fn exchanged(r: &mut Random, witness: &[u8], room: usize) -> Vec<String> {
    let mut lines = vec![format!("tocbor {}", hex(witness))];
    let Some(mut bytes) = cbor::of(witness) else { return lines };
    lines.push(format!("fromcbor {}", hex(&bytes)));
    match r.below(8) {
        0 => {
            let at = r.below(bytes.len());
            bytes[at] ^= 1 << r.below(8);
        }
        1 => bytes.truncate(r.below(bytes.len() + 1)),
        2 => bytes.push(r.below(256) as u8),
        3 => bytes = [[0x83, 0x02, 0x40].repeat(60 + r.below(6)), bytes].concat(),
        4 => lines.extend([
            format!("room {}", witness.len() - 1),
            format!("fromcbor {}", hex(&bytes)),
            format!("room {}", bytes.len() - 1),
            format!("tocbor {}", hex(witness)),
            format!("room {room}"),
        ]),
        way => bytes = cbor::otherwise(&bytes, way, r.below(1000)),
    }
    lines.push(format!("fromcbor {}", hex(&bytes)));
    lines
}

/// The bytes of a witness that a line's answer has, if they are not many.
fn shown(answer: &str) -> Option<Vec<u8>> {
    let words: Vec<&str> = answer.split(' ').collect();
    match words[..] {
        ["0", _, bytes, "0"] if bytes.len() <= 6_000 => unhex(bytes).filter(|b| !b.is_empty()),
        _ => None,
    }
}

/// A script of about so many lines.
pub fn script(seed: u64, lines: usize) -> Vec<String> {
    let mut r = Random::new(seed);
    let mut out: Vec<String> = vec![];
    let mut made = Calls::new();
    let mut told = 0;
    let mut seen: Vec<Vec<u8>> = vec![vec![0, 0]];
    while out.len() < lines {
        let capacity = match r.below(12) {
            0 => 1,
            1 => 2 + r.below(3),
            2..=7 => 4 + r.below(30),
            8..=10 => 40 + r.below(160),
            _ => 1024,
        };
        let length = 8 + 150 * capacity;
        if r.chance(4) {
            out.push(format!("buffer {}", length + [1, 150, 8][r.below(3)]));
            out.push(format!("create {capacity}"));
            out.push(format!("create {}", [0, 1025, u64::MAX as usize, 2047, 122_978_293_824_730_345][r.below(5)]));
        }
        out.push(format!("buffer {length}"));
        out.push("count".into());
        out.push(format!("create {capacity}"));
        let room = [131_072, 131_072, 131_072, 131_072, 131_072, 2, 34, 200, 2_000][r.below(9)];
        out.push(format!("room {room}"));
        let mut keys = Keys { used: vec![], letters: 2 + r.below(5), longest: [2, 3, 5, 9, 50][r.below(5)] };
        let steps = if capacity == 1024 { 2600 } else { 12 * capacity.min(90) + 30 };
        let mut grow = true;
        for step in 0..steps {
            if step % (steps / 3 + 1) == 0 && step > 0 {
                grow = !grow;
            }
            let key = keys.any(&mut r);
            let write = match r.below(10) {
                0 => format!("modify {} {}", hex(&key), hex(&keys.value(&mut r))),
                n if (n < 7) == grow => {
                    if key.len() <= 48 {
                        keys.used.push(key.clone());
                    }
                    format!("insert {} {}", hex(&key), hex(&keys.value(&mut r)))
                }
                _ => format!("delete {}", hex(&key)),
            };
            out.push(write);
            if capacity <= 40 || r.chance(20) {
                out.push("sum".into());
            }
            if r.chance(15) {
                out.extend(replays(&mut r, &mut keys, capacity));
            }
            if r.chance(3) {
                let q = query(&mut r, &mut keys);
                if capacity <= 200 || !(q == "keys" || q == "full") || r.chance(20) {
                    out.push(q);
                    if capacity <= 40 {
                        let mut answer = String::new();
                        for line in &out[told..] {
                            answer = made.answer(line.as_bytes());
                        }
                        told = out.len();
                        if let Some(witness) = shown(&answer) {
                            if seen.len() == 6 {
                                seen.remove(0);
                            }
                            out.extend(exchanged(&mut r, &witness, room));
                            seen.push(witness);
                            out.extend(readings(&mut r, &mut keys, &seen, room));
                        }
                    }
                }
            }
        }
        out.push("root".into());
        for line in &out[told..] {
            made.answer(line.as_bytes());
        }
        told = out.len();
        let map = made.pairs();
        out.extend(releases(&mut r, &map, room));
        for _ in 0..r.below(6) {
            out.push(format!("poke {} {}", r.below(length), hex(&[r.below(256) as u8])));
            for _ in 0..3 {
                out.push(query(&mut r, &mut keys));
            }
            out.push("insert 61 62".into());
            out.push(["replay 0102610b", "replay 0103610b"][r.below(2)].into());
            out.push("sum".into());
            if r.chance(3) {
                out.push("diff".into());
                out.push("swap".into());
                out.push("diff".into());
            }
        }
    }
    out.truncate(lines);
    out
}
