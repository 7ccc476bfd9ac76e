//! The Rust's rb_tree behind the public calls of document 01, to hold our own implementation beside it.
//!
//!     oracle calls                 answers a script of `calls` on standard input, a line for each line
//!     oracle script SEED LINES     writes a random script
//!     oracle fuzz SEED LINES       writes a script in which any bytes may arrive
//!     oracle fuzzed SCRIPT ANSWERS ..    holds the answers to such scripts to document 01's table
//!     oracle cases trees           writes crates/cases/proofs/Trees.antt
//!     oracle cases witnesses       writes crates/cases/proofs/Witnesses.antt
//!
//! rb_tree/mod.rs and nested_rb_tree.rs are the customer's files, unchanged; `hash_tree` is a stand-in written from the Interface Specification.
mod calls;
mod cases;
mod cbor;
mod fuzz;
mod fuzzed;
mod hash_tree;
mod lies;
mod logs;
mod nested;
#[allow(dead_code)]
#[path = "rust_map.rs"]
mod rb_tree;
mod readings;
mod releases;
mod script;
mod sha256;
mod store;

use hash_tree::{empty, fork, labeled, leaf, pruned, Hash, HashTree, HashTreeNode};
use rb_tree::{AsHashTree, RbTree};
use std::io::{BufRead, BufWriter, Write};

fn main() {
    let words: Vec<String> = std::env::args().skip(1).collect();
    let words: Vec<&str> = words.iter().map(String::as_str).collect();
    let mut out = BufWriter::new(std::io::stdout().lock());
    match words[..] {
        ["calls"] => {
            let mut calls = calls::Calls::new();
            for line in std::io::stdin().lock().split(b'\n') {
                writeln!(out, "{}", calls.answer(&line.unwrap())).unwrap();
            }
        }
        ["script", seed, lines] => {
            for line in script::script(seed.parse().unwrap(), lines.parse().unwrap()) {
                writeln!(out, "{line}").unwrap();
            }
        }
        ["fuzz", seed, lines] => {
            for line in fuzz::script(seed.parse().unwrap(), lines.parse().unwrap()) {
                out.write_all(&line).unwrap();
                out.write_all(b"\n").unwrap();
            }
        }
        ["fuzzed", ref files @ ..] => {
            let mut held = fuzzed::Held::default();
            for pair in files.chunks(2) {
                held.hold(&std::fs::read(pair[0]).unwrap(), &std::fs::read(pair[1]).unwrap());
            }
            if !held.report() {
                std::process::exit(1);
            }
        }
        ["cases", what] => {
            hash_tree::remember();
            if what == "trees" {
                cases::trees()
            } else {
                cases::witnesses()
            }
        }
        _ => eprintln!("usage: oracle calls < SCRIPT; oracle script|fuzz SEED LINES; oracle fuzzed SCRIPT ANSWERS ..; oracle cases trees|witnesses"),
    }
}
