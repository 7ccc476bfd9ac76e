//! Holds the answers to a script of `oracle fuzz` to document 01's table: each line is answered, each number is one that the call
//! can give, a refused call gives nothing else and changes no byte, and every answer is the oracle's own.
use crate::calls::Calls;
use std::collections::BTreeMap;

/// The numbers that a call can answer.
fn numbers(call: &str) -> &'static [usize] {
    match call {
        "create" => &[0, 8],
        "insert" => &[0, 1, 2, 3, 5],
        "modify" => &[0, 1, 2, 3, 7],
        "delete" | "get" | "next" => &[0, 1, 2, 7],
        "first" => &[0, 1, 7],
        "replay" => &[0, 1, 13],
        "count" | "empty" | "root" => &[0, 1],
        "full" | "keys" => &[0, 1, 6],
        "witness" | "prefix" => &[0, 1, 2, 6],
        "krange" | "vrange" => &[0, 1, 2, 4, 6],
        "rebuild" | "part" | "end" => &[0, 9],
        "ask" => &[0, 2, 9, 11],
        "merge" => &[0, 6, 9, 15],
        "tocbor" => &[0, 6, 9],
        "fromcbor" => &[0, 6, 12],
        "diff" => &[0, 1, 6],
        "hash" => &[0, 10],
        _ => &[],
    }
}

const CALLS: [&str; 26] = [
    "create", "insert", "modify", "delete", "get", "first", "next", "count", "empty", "root", "full", "keys", "witness", "krange", "vrange",
    "prefix", "rebuild", "hash", "ask", "merge", "part", "end", "tocbor", "fromcbor", "replay", "diff",
];

/// What stands after the number of a refused call.
fn refused(call: &str) -> String {
    match call {
        "get" | "first" | "next" => " 0 0 0 0".into(),
        "count" => " 0".into(),
        "replay" => " 0 0".into(),
        "empty" => " no".into(),
        "ask" => " refused 0 0".into(),
        "root" | "rebuild" | "hash" | "end" => format!(" {}", "00".repeat(32)),
        "full" | "keys" | "witness" | "krange" | "vrange" | "prefix" | "merge" | "tocbor" | "fromcbor" | "diff" => " 0 - 0".into(),
        _ => String::new(),
    }
}

#[derive(Default)]
pub struct Held {
    lines: usize,
    calls: usize,
    unchanged: usize,
    none: usize,
    faults: usize,
    seen: BTreeMap<(String, usize), usize>,
}

impl Held {
    fn fault(&mut self, what: &str, line: &str, answer: &str) {
        self.faults += 1;
        if self.faults <= 5 {
            let short = |s: &str| s.chars().take(150).collect::<String>();
            eprintln!("{what}\n  line   {}\n  answer {}", short(line), short(answer));
        }
    }

    /// One call: its number, and what stands after it.
    fn call(&mut self, call: &str, line: &str, answer: &str) -> Option<usize> {
        self.calls += 1;
        let digits = answer.split(' ').next().unwrap_or("");
        let number = digits.parse().ok().filter(|n| numbers(call).contains(n));
        let Some(number) = number else {
            self.fault("a number that this call cannot give", line, answer);
            return None;
        };
        *self.seen.entry((call.into(), number)).or_default() += 1;
        if number != 0 && answer[digits.len()..] != refused(call) {
            self.fault("a refused call that gives more than its number", line, answer);
        }
        Some(number)
    }

    /// A script and the answers to it.
    pub fn hold(&mut self, script: &[u8], answers: &[u8]) {
        let lines: Vec<&[u8]> = script.split(|b| *b == b'\n').collect();
        let answers: Vec<String> = answers.split(|b| *b == b'\n').map(|a| String::from_utf8_lossy(a).into()).collect();
        if lines.len() != answers.len() {
            self.fault("not an answer for each line", &format!("{} lines", lines.len() - 1), &format!("{} answers", answers.len() - 1));
        }
        let mut oracle = Calls::new();
        let (mut sum, mut refused) = (String::new(), false);
        for (line, answer) in lines[..lines.len() - 1].iter().zip(&answers) {
            self.lines += 1;
            let text = String::from_utf8_lossy(line);
            let theirs = oracle.answer(line);
            if theirs != *answer {
                self.fault(&format!("the oracle answers {}", theirs.chars().take(150).collect::<String>()), &text, answer);
            }
            let name = text.split(' ').next().unwrap_or("");
            match name {
                _ if answer == "?" => {
                    self.none += 1;
                    refused = true;
                }
                "sum" => {
                    if refused {
                        self.unchanged += 1;
                        if sum != *answer {
                            self.fault("a refused call changed the store", &text, answer);
                        }
                    }
                    sum = answer.clone();
                    refused = false;
                }
                "load" | "buffer" | "poke" | "room" | "begin" | "swap" | "store" => refused = false,
                _ => refused = self.call(name, &text, answer).is_some_and(|n| n != 0),
            }
        }
    }

    /// Prints the counts, and answers whether all is well.
    pub fn report(&self) -> bool {
        println!("{} lines, {} calls; by call, the numbers answered and how often:", self.lines, self.calls);
        let count = |call: &str, n: usize| self.seen.get(&(call.to_string(), n)).copied().unwrap_or(0);
        for call in CALLS {
            let each: Vec<String> = numbers(call).iter().map(|n| format!("{n}: {}", count(call, *n))).collect();
            println!("  {call:8} {}", each.join("  "));
        }
        for n in 0..=15 {
            println!("  number {n}: {}", CALLS.iter().map(|call| count(call, n)).sum::<usize>());
        }
        println!("{} refused calls and lines that are none ({}), after which the store's sum was unchanged", self.unchanged, self.none);
        println!("{} faults", self.faults);
        self.faults == 0
    }
}
