//! What a call answered, as its line says it.

use std::fmt;
use std::hash::{Hash, Hasher};

/// A name with a note, which says nothing to `==` and to hashers.
#[derive(Clone, Copy)]
pub struct Noted {
    pub name: u64,
    pub note: u64,
}

impl PartialEq for Noted {
    fn eq(&self, other: &Noted) -> bool {
        self.name == other.name
    }
}

impl Eq for Noted {}

impl Hash for Noted {
    fn hash<H: Hasher>(&self, state: &mut H) {
        self.name.hash(state);
    }
}

pub enum Answer {
    None,
    Number(u64),
    Key(Noted),
    Pair(Noted, u64),
    Walk(Walk),
}

impl fmt::Display for Answer {
    fn fmt(&self, f: &mut fmt::Formatter<'_>) -> fmt::Result {
        match self {
            Answer::None => write!(f, "none"),
            Answer::Number(number) => write!(f, "{number}"),
            Answer::Key(key) => write!(f, "{}~{}", key.name, key.note),
            Answer::Pair(key, value) => write!(f, "{}~{}:{value}", key.name, key.note),
            Answer::Walk(walk) => write!(f, "{} pairs {:016x}", walk.count, walk.digest),
        }
    }
}

impl Answer {
    pub fn number(found: Option<u64>) -> Answer {
        found.map_or(Answer::None, Answer::Number)
    }

    pub fn key(found: Option<Noted>) -> Answer {
        found.map_or(Answer::None, Answer::Key)
    }

    pub fn pair(found: Option<(Noted, u64)>) -> Answer {
        found.map_or(Answer::None, |(key, value)| Answer::Pair(key, value))
    }

    pub fn yes(yes: bool) -> Answer {
        Answer::Number(u64::from(yes))
    }
}

/// What a walk gave, whatever the order in a shard.
#[derive(Default)]
pub struct Walk {
    count: u64,
    shard: u64,
    sum: u64,
    digest: u64,
}

impl Walk {
    pub fn add(&mut self, shard: usize, key: Noted, value: u64) {
        if shard as u64 != self.shard {
            self.end_shard(shard as u64);
        }
        self.sum = self.sum.wrapping_add(mixed(mixed(mixed(key.name) ^ key.note) ^ value));
        self.count += 1;
    }

    pub fn ended(mut self) -> Answer {
        self.end_shard(0);
        Answer::Walk(self)
    }

    fn end_shard(&mut self, next: u64) {
        self.digest = mixed(self.digest ^ mixed(self.sum ^ self.shard));
        self.shard = next;
        self.sum = 0;
    }
}

pub fn mixed(number: u64) -> u64 {
    let mut mixed = number.wrapping_mul(0x9e37_79b9_7f4a_7c15);
    mixed = (mixed ^ (mixed >> 30)).wrapping_mul(0xbf58_476d_1ce4_e5b9);
    mixed = (mixed ^ (mixed >> 27)).wrapping_mul(0x94d0_49bb_1331_11eb);
    mixed ^ (mixed >> 31)
}
