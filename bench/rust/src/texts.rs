//! Works on a map whose keys are texts of 8 to 40 bytes, and whose values take 64 bytes.

use crate::hash::FixedState;
use crate::keys::key;
use crate::run::{Measured, time};
use crate::worker::share_of;
use dashmap::DashMap;

/// How many pairs there are.
const PAIRS: usize = 200_000;

/// How often each key is looked up.
const ROUNDS: u64 = 5;

type Value = [u64; 8];

type Map = DashMap<String, Value, FixedState>;

/// One kind of work.
#[derive(Clone, Copy, PartialEq, Eq)]
pub enum Text {
    Hit,
    Insert0,
    Remove,
}

impl Text {
    pub fn of_name(name: &str) -> Option<Text> {
        Some(match name {
            "string-hit" => Text::Hit,
            "string-insert0" => Text::Insert0,
            "string-remove" => Text::Remove,
            _ => return None,
        })
    }
}

// The text of a number: letters that stand for bits of its key.
fn text_of(number: u64) -> String {
    let mut bits = key(number);
    let length = 8 + bits % 33;
    let mut text = String::with_capacity(40);
    for _ in 0..length {
        text.push((b'a' + (bits & 15) as u8) as char);
        bits = bits.rotate_right(4);
    }
    text
}

fn sum_of(value: &Value) -> u64 {
    value.iter().fold(0u64, |sum, part| sum.wrapping_add(*part))
}

/// How many steps there were, and the sum of what they gave.
#[derive(Clone, Copy, Default)]
struct Tally {
    steps: u64,
    sum: u64,
}

impl Tally {
    #[inline(always)]
    fn count(&mut self, found: Option<u64>) {
        self.steps += 1;
        self.sum = self.sum.wrapping_add(found.unwrap_or(1));
    }
}

fn look_up(map: &Map, keys: &[String]) -> Tally {
    let mut tally = Tally::default();
    for _ in 0..ROUNDS {
        for key in keys {
            tally.count(map.get(key.as_str()).map(|found| sum_of(found.value())));
        }
    }
    tally
}

fn insert(map: &Map, keys: &mut Vec<String>) -> Tally {
    let mut tally = Tally::default();
    for number in 0..keys.len() as u64 {
        if let Some(key) = keys.pop() {
            let old = map.insert(key, [number; 8]);
            tally.count(old.map(|old| sum_of(&old)));
        }
    }
    tally
}

fn remove(map: &Map, keys: &[String]) -> Tally {
    let mut tally = Tally::default();
    for key in keys {
        let old = map.remove(key);
        tally.count(old.map(|(_, value)| sum_of(&value)));
    }
    tally
}

/// A thread's texts, and what it came to.
struct Worker {
    keys: Vec<String>,
    done: Tally,
}

impl Worker {
    // A thread's texts, in an order that looks random.
    fn new(index: usize, threads: usize) -> Self {
        let (first, end) = share_of(PAIRS, index, threads);
        let keys = (first..end).map(|number| text_of(number * 77_773 % PAIRS as u64)).collect();
        Worker { keys, done: Tally::default() }
    }

    fn work(&mut self, map: &Map, text: Text) {
        self.done = match text {
            Text::Hit => look_up(map, &self.keys),
            Text::Insert0 => insert(map, &mut self.keys),
            Text::Remove => remove(map, &self.keys),
        };
    }
}

/// The time of a work by so many threads, on a map of so many shards.
pub fn measure(text: Text, threads: usize, shards: usize) -> Measured {
    let room = if text == Text::Insert0 { 0 } else { PAIRS };
    let map = Map::with_capacity_and_hasher_and_shard_amount(room, FixedState, shards);
    for number in 0..room as u64 {
        map.insert(text_of(number), [number; 8]);
    }
    let mut workers: Vec<Worker> = (0..threads).map(|index| Worker::new(index, threads)).collect();
    let nanoseconds = time(&mut workers, |worker| worker.work(&map, text));
    Measured {
        nanoseconds,
        steps: workers.iter().map(|worker| worker.done.steps).sum(),
        sum: workers.iter().fold(0u64, |sum, worker| sum.wrapping_add(worker.done.sum)),
        bytes: 0,
    }
}
