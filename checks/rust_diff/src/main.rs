//! `rust_diff HASHER CALLS [FAULT]`: the calls of `tool_diff`, taken by the Rust crate `dashmap`, and a line for each. Where HASHER is `text`,
//! the keys are texts, and FAULT says nothing.
//!
//! FAULT plants one: `insert` keeps the old value of one key in a thousand, `remove_entry` answers the key that was handed in, `walk` ends
//! one shard early.

mod answer;
mod calls;
mod hashers;
mod texts;

use answer::{mixed, Noted};
use calls::{take, Fault, Maps};
use hashers::{FixedState, PlaceState, ZeroState};
use std::hash::BuildHasher;
use std::io::{self, BufWriter, Write};

const NAMES: u64 = 2000;

/// One call.
#[derive(Clone, Copy)]
pub struct Draw {
    pub number: u64,
    pub group: u64,
    pub kind: u64,
    pub name: u64,
    pub value: u64,
}

impl Draw {
    fn of(number: u64) -> Draw {
        let drawn = mixed(number.wrapping_add(1));
        Draw {
            number,
            group: drawn % 16,
            kind: (drawn >> 8) % 12,
            name: (drawn >> 16) % NAMES,
            value: (drawn >> 40) % 1000,
        }
    }

    pub fn key(&self) -> Noted {
        self.key_after(0)
    }

    pub fn key_after(&self, steps: u64) -> Noted {
        Noted { name: (self.name + steps) % NAMES, note: self.number }
    }
}

fn run<S: BuildHasher + Clone>(hasher: S, calls: u64, fault: Fault) -> io::Result<()> {
    let mut maps = Maps::new(hasher);
    let mut out = BufWriter::new(io::stdout().lock());
    for number in 0..calls {
        let draw = Draw::of(number);
        let (call, answer) = take(&mut maps, draw, fault);
        writeln!(out, "{number} {call} {}: {answer}", draw.name)?;
    }
    out.flush()
}

fn main() -> io::Result<()> {
    let words: Vec<String> = std::env::args().skip(1).collect();
    let calls = words[1].parse::<u64>().unwrap();
    let fault = match words.get(2).map(String::as_str) {
        None => Fault::None,
        Some("insert") => Fault::Insert,
        Some("remove_entry") => Fault::RemoveEntry,
        Some("walk") => Fault::Walk,
        Some(other) => panic!("no such fault: {other}"),
    };
    match words[0].as_str() {
        "text" => texts::run(calls),
        "place" => run(PlaceState, calls, fault),
        "zero" => run(ZeroState, calls, fault),
        _ => run(FixedState, calls, fault),
    }
}
