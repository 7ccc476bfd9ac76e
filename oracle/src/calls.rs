//! The program `calls`, a line at a time, answered by the Rust's own map.
use crate::hash_tree::{rebuild, HashTree};
use crate::cbor::{fromcbor, tocbor};
use crate::logs::{edits, Edit};
use crate::readings::{ask, merge, Parts};
use crate::rb_tree::AsHashTree;
use crate::releases::{lines, Pairs};
use crate::sha256::sha256;
use crate::store::{judge, place, Store};

const STORE_MOST: usize = 153_608;
const OUTPUT_MOST: usize = 131_072;
const LINE_MOST: usize = 320_000;

/// The other store, as the store of `Calls`.
#[derive(Default)]
struct Other {
    bytes: Vec<u8>,
    store: Option<Option<Store>>,
    ahead: bool,
}

pub struct Calls {
    bytes: Vec<u8>,
    /// The bytes as a store: not judged yet, judged and not sound, or sound.
    store: Option<Option<Store>>,
    /// The store has changed since `bytes` was written.
    ahead: bool,
    other: Other,
    room: usize,
    parts: Parts,
}

pub fn hex(bytes: &[u8]) -> String {
    if bytes.is_empty() {
        return "-".into();
    }
    bytes.iter().map(|b| format!("{b:02x}")).collect()
}

pub fn unhex(word: &str) -> Option<Vec<u8>> {
    if word == "-" {
        return Some(vec![]);
    }
    let digit = |c: u8| match c {
        b'0'..=b'9' => Some(c - b'0'),
        b'a'..=b'f' => Some(c - b'a' + 10),
        _ => None,
    };
    if word.is_empty() || word.len() % 2 != 0 {
        return None;
    }
    word.as_bytes().chunks(2).map(|two| Some(digit(two[0])? * 16 + digit(two[1])?)).collect()
}

fn number(word: &str) -> Option<u64> {
    if word.is_empty() || !word.bytes().all(|c| c.is_ascii_digit()) {
        return None;
    }
    word.parse().ok()
}

fn upto(word: &str, most: usize) -> Option<usize> {
    number(word).filter(|n| *n <= most as u64).map(|n| n as usize)
}

/// First is above last, both bounds exist, and the low one is above the high one.
pub fn crossed(store: &Store, first: &[u8], last: &[u8]) -> bool {
    let low = store.slots.keys().filter(|k| k.as_slice() <= first).max();
    let high = store.slots.keys().filter(|k| k.as_slice() >= last).min();
    first > last && low.is_some() && high.is_some() && low > high
}

impl Calls {
    pub fn new() -> Calls {
        Calls { bytes: vec![], store: None, ahead: false, other: Other::default(), room: 0, parts: Parts::default() }
    }

    fn now(&mut self) -> &mut Vec<u8> {
        if self.ahead {
            self.bytes = self.store.as_ref().unwrap().as_ref().unwrap().bytes();
            self.ahead = false;
        }
        &mut self.bytes
    }

    fn become_bytes(&mut self, bytes: Vec<u8>) -> String {
        self.bytes = bytes;
        self.store = None;
        self.ahead = false;
        "ok".into()
    }

    fn sound(&mut self) -> Option<&mut Store> {
        if self.store.is_none() {
            self.store = Some(judge(&self.bytes));
        }
        self.store.as_mut().unwrap().as_mut()
    }

    /// The first number of 1, 2, 3 that applies, or the store.
    fn ready(&mut self, keys: &[&[u8]], value: &[u8]) -> Result<&mut Store, u8> {
        let Some(store) = self.sound() else { return Err(1) };
        if keys.iter().any(|k| k.len() > 48) {
            return Err(2);
        }
        if value.len() > 64 {
            return Err(3);
        }
        Ok(store)
    }

    fn changed(&mut self, number: u8) -> String {
        self.ahead |= number == 0;
        number.to_string()
    }

    fn insert(&mut self, key: &[u8], value: &[u8]) -> u8 {
        match self.ready(&[key], value) {
            Err(n) => n,
            Ok(store) => if store.insert(key, value) { 0 } else { 5 },
        }
    }

    fn modify(&mut self, key: &[u8], value: &[u8]) -> u8 {
        match self.ready(&[key], value) {
            Err(n) => n,
            Ok(store) if store.map.get(key).is_none() => 7,
            Ok(store) => {
                store.modify(key, value);
                0
            }
        }
    }

    fn delete(&mut self, key: &[u8]) -> u8 {
        match self.ready(&[key], &[]) {
            Err(n) => n,
            Ok(store) if store.map.get(key).is_none() => 7,
            Ok(store) => {
                store.delete(key);
                0
            }
        }
    }

    /// One call for each record of a log that can be read.
    fn replay(&mut self, log: &[u8]) -> String {
        if self.sound().is_none() {
            return "1 0 0".into();
        }
        let Some(edits) = edits(log) else { return "13 0 0".into() };
        let (mut fives, mut sevens) = (0, 0);
        for edit in edits {
            let number = match edit {
                Edit::Insert(key, value) => self.insert(key, value),
                Edit::Modify(key, value) => self.modify(key, value),
                Edit::Delete(key) => self.delete(key),
            };
            self.changed(number);
            fives += usize::from(number == 5);
            sevens += usize::from(number == 7);
        }
        format!("0 {fives} {sevens}")
    }

    fn found(&mut self, key: &[u8], pick: impl Fn(&Store) -> Option<Vec<u8>>) -> String {
        match self.ready(&[key], &[]) {
            Err(n) => format!("{n} 0 0 0 0"),
            Ok(store) => match pick(store) {
                None => "7 0 0 0 0".into(),
                Some(k) => {
                    let at = place(store.slots[&k]);
                    let value_length = store.map.get(&k).unwrap().len();
                    format!("0 {} {} {} {}", at + 6, k.len(), at + 54, value_length)
                }
            },
        }
    }

    fn witness(&mut self, keys: &[&[u8]], range: bool, make: impl Fn(&Store) -> HashTree) -> String {
        let room = self.room;
        let number = match self.ready(keys, &[]) {
            Err(n) => n,
            Ok(store) if range && crossed(store, keys[0], keys[1]) => 4,
            Ok(store) => {
                let mut out = vec![];
                make(store).root.write(&mut out);
                if out.len() <= room {
                    return format!("0 {} {} 0", out.len(), hex(&out));
                }
                6
            }
        };
        format!("{number} 0 - 0")
    }

    fn swap(&mut self) {
        std::mem::swap(&mut self.bytes, &mut self.other.bytes);
        std::mem::swap(&mut self.store, &mut self.other.store);
        std::mem::swap(&mut self.ahead, &mut self.other.ahead);
    }

    /// The other is the old store.
    fn differ(&mut self) -> String {
        self.swap();
        self.sound();
        self.swap();
        self.sound();
        let (Some(Some(old)), Some(Some(new))) = (&self.other.store, &self.store) else { return "1 0 - 0".into() };
        let out = lines(old.map.iter(), new.map.iter());
        if out.len() <= self.room { format!("0 {} {} 0", out.len(), hex(&out)) } else { "6 0 - 0".into() }
    }

    /// What the store holds; nothing, if it is not sound.
    pub fn pairs(&mut self) -> Pairs {
        self.sound().map_or(vec![], |s| s.map.iter().map(|(k, v)| (k.clone(), v.clone())).collect())
    }

    pub fn answer(&mut self, line: &[u8]) -> String {
        if line.len() > LINE_MOST {
            return "?".into();
        }
        std::str::from_utf8(line).ok().and_then(|text| self.answer_words(text)).unwrap_or("?".into())
    }

    fn answer_words(&mut self, line: &str) -> Option<String> {
        let words: Vec<&str> = line.split(' ').collect();
        Some(match words[..] {
            ["buffer", n] => {
                let n = upto(n, STORE_MOST)?;
                self.become_bytes(vec![0xee; n])
            }
            ["load", h] => {
                let bytes = unhex(h).filter(|b| b.len() <= STORE_MOST)?;
                self.become_bytes(bytes)
            }
            ["poke", at, h] => {
                let (at, new) = (upto(at, STORE_MOST)?, unhex(h)?);
                let bytes = self.now();
                if at + new.len() > bytes.len() {
                    return None;
                }
                bytes[at..at + new.len()].copy_from_slice(&new);
                let bytes = std::mem::take(bytes);
                self.become_bytes(bytes)
            }
            ["room", n] => {
                self.room = upto(n, OUTPUT_MOST)?;
                "ok".into()
            }
            ["create", n] => {
                let capacity = number(n)?;
                let length = self.now().len() as u64;
                if !(1..=1024).contains(&capacity) || length != 8 + 150 * capacity {
                    return Some("8".into());
                }
                self.store = Some(Some(Store::fresh(capacity as usize)));
                self.changed(0)
            }
            ["insert", k, v] => {
                let n = self.insert(&unhex(k)?, &unhex(v)?);
                self.changed(n)
            }
            ["modify", k, v] => {
                let n = self.modify(&unhex(k)?, &unhex(v)?);
                self.changed(n)
            }
            ["delete", k] => {
                let n = self.delete(&unhex(k)?);
                self.changed(n)
            }
            ["replay", log] => self.replay(&unhex(log)?),
            ["get", k] => {
                let key = unhex(k)?;
                self.found(&key, |s| s.map.get(&key).map(|_| key.clone()))
            }
            ["first"] => self.found(&[], |s| s.map.iter().next().map(|e| e.0.clone())),
            ["next", k] => {
                let key = unhex(k)?;
                self.found(&key, |s| s.map.iter().map(|e| e.0.clone()).find(|k| *k > key))
            }
            ["count"] => match self.sound() {
                None => "1 0".into(),
                Some(s) => format!("0 {}", s.map.iter().count()),
            },
            ["empty"] => match self.sound() {
                None => "1 no".into(),
                Some(s) => format!("0 {}", if s.map.is_empty() { "yes" } else { "no" }),
            },
            ["root"] => match self.sound() {
                None => format!("1 {}", hex(&[0; 32])),
                Some(s) => format!("0 {}", hex(&s.map.root_hash())),
            },
            ["full"] => self.witness(&[], false, |s| s.map.as_hash_tree()),
            ["keys"] => self.witness(&[], false, |s| s.map.keys()),
            ["witness", k] => {
                let k = unhex(k)?;
                self.witness(&[&k], false, |s| s.map.witness(&k))
            }
            ["krange", a, b] => {
                let (a, b) = (unhex(a)?, unhex(b)?);
                self.witness(&[&a, &b], true, |s| s.map.key_range(&a, &b))
            }
            ["vrange", a, b] => {
                let (a, b) = (unhex(a)?, unhex(b)?);
                self.witness(&[&a, &b], true, |s| s.map.value_range(&a, &b))
            }
            ["prefix", p] => {
                let p = unhex(p)?;
                self.witness(&[&p], false, |s| s.map.keys_with_prefix(&p))
            }
            ["rebuild", w] => match rebuild(&unhex(w)?) {
                None => format!("9 {}", hex(&[0; 32])),
                Some(digest) => format!("0 {}", hex(&digest)),
            },
            ["ask", w, k] => ask(&unhex(w)?, &unhex(k)?),
            ["merge", one, other] => merge(&unhex(one)?, &unhex(other)?, self.room),
            ["tocbor", w] => tocbor(&unhex(w)?, self.room),
            ["fromcbor", c] => fromcbor(&unhex(c)?, self.room),
            ["begin"] => self.parts.begin(),
            ["part", bytes] => self.parts.part(&unhex(bytes)?),
            ["end"] => self.parts.end(),
            ["hash", m] => {
                let message = unhex(m)?;
                if message.len() > 65_536 {
                    format!("10 {}", hex(&[0; 32]))
                } else {
                    format!("0 {}", hex(&sha256(&[&message])))
                }
            }
            ["swap"] => {
                self.swap();
                "ok".into()
            }
            ["diff"] => self.differ(),
            ["store"] => hex(self.now()),
            ["sum"] => hex(&sha256(&[self.now()])),
            _ => return None,
        })
    }
}
