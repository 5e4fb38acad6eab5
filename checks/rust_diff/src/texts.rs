//! Calls on a map and a set whose keys are texts, as `tool_diff` takes them.

use crate::answer::{Answer, Noted};
use crate::hashers::FixedState;
use crate::Draw;
use dashmap::mapref::one::Ref;
use dashmap::try_result::TryResult;
use dashmap::{DashMap, DashSet};
use std::io::{self, BufWriter, Write};

const SHARDS: usize = 4;

type Map = DashMap<String, u64, FixedState>;

type Set = DashSet<String, FixedState>;

type Told = (&'static str, Answer);

pub fn run(calls: u64) -> io::Result<()> {
    let map = Map::with_hasher_and_shard_amount(FixedState, SHARDS);
    let set = Set::with_hasher(FixedState);
    let mut out = BufWriter::new(io::stdout().lock());
    for number in 0..calls {
        let draw = Draw::of(number);
        let text = draw.name.to_string();
        let (call, answer) = match draw.group {
            0..=10 => on_map(&map, draw, text),
            _ => on_set(&set, draw, text),
        };
        writeln!(out, "{number} {call} {}: {answer}", draw.name)?;
    }
    out.flush()
}

// The number that a text is of, and its length.
fn told(text: &str) -> Noted {
    Noted { name: text.parse().unwrap(), note: text.len() as u64 }
}

fn told_pair(pair: Option<(String, u64)>) -> Answer {
    pair.map_or(Answer::None, |(key, value)| Answer::Pair(told(&key), value))
}

fn told_key(key: Option<String>) -> Answer {
    key.map_or(Answer::None, |key| Answer::Key(told(&key)))
}

fn told_ref(found: &Ref<'_, String, u64, FixedState>) -> Answer {
    Answer::Pair(told(found.key()), *found.value())
}

fn on_map(map: &Map, draw: Draw, text: String) -> Told {
    let asked = text.as_str();
    match draw.kind {
        0..=3 => ("insert", Answer::number(map.insert(text, draw.value))),
        4 => ("get", map.get(asked).map_or(Answer::None, |found| told_ref(&found))),
        5 => match map.get_mut(asked) {
            Some(mut found) => {
                *found = found.wrapping_add(1);
                ("get_mut", Answer::Pair(told(found.key()), *found.value()))
            }
            None => ("get_mut", Answer::None),
        },
        6 => ("remove", told_pair(map.remove(asked))),
        7 => ("remove_if", told_pair(map.remove_if(asked, |_, value| *value % 2 == 0))),
        8 => {
            let removed = map.remove_if_mut(asked, |_, value| {
                *value = value.wrapping_add(1);
                *value % 3 == 0
            });
            ("remove_if_mut", told_pair(removed))
        }
        9 => {
            map.alter(asked, |_, value| value.wrapping_mul(3).wrapping_add(1));
            let seen = map.view(asked, |key, value| Answer::Pair(told(key), *value));
            ("alter, view", seen.unwrap_or(Answer::None))
        }
        10 => ("contains_key", Answer::yes(map.contains_key(asked))),
        _ => match map.try_get(asked) {
            TryResult::Present(found) => ("try_get", told_ref(&found)),
            _ => ("try_get", Answer::Number(map.determine_map(asked) as u64)),
        },
    }
}

fn on_set(set: &Set, draw: Draw, text: String) -> Told {
    let asked = text.as_str();
    match draw.kind {
        0..=3 => ("set insert", Answer::yes(set.insert(text))),
        4 | 5 => ("set remove", told_key(set.remove(asked))),
        6 | 7 => ("set remove_if", told_key(set.remove_if(asked, |key| key.len() % 2 == 0))),
        8 | 9 => {
            let found = set.get(asked).map(|found| Answer::Key(told(found.key())));
            ("set get", found.unwrap_or(Answer::None))
        }
        _ => ("set contains", Answer::yes(set.contains(asked))),
    }
}
