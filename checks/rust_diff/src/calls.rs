//! The calls, as `tool_diff` takes them.

use crate::answer::{Answer, Noted, Walk};
use crate::hashers::FixedState;
use crate::Draw;
use dashmap::mapref::entry::{Entry, OccupiedEntry};
use dashmap::try_result::TryResult;
use dashmap::{DashMap, DashSet};
use std::hash::BuildHasher;

const SHARDS: usize = 4;

type Map<S> = DashMap<Noted, u64, S>;

/// What is wrong on purpose.
#[derive(Clone, Copy, PartialEq)]
pub enum Fault {
    None,
    Insert,
    RemoveEntry,
    Walk,
}

pub struct Maps<S> {
    map: Map<S>,
    set: DashSet<Noted, S>,
}

impl<S: BuildHasher + Clone> Maps<S> {
    pub fn new(hasher: S) -> Maps<S> {
        Maps {
            map: DashMap::with_hasher_and_shard_amount(hasher.clone(), SHARDS),
            set: DashSet::with_hasher(hasher),
        }
    }
}

type Told = (&'static str, Answer);

pub fn take<S: BuildHasher + Clone>(maps: &mut Maps<S>, draw: Draw, fault: Fault) -> Told {
    match draw.group {
        0..=5 => keyed(&maps.map, draw, fault),
        6..=10 => entries(&maps.map, draw, fault),
        11..=13 => sets(maps, draw),
        14 => walks(&maps.map, draw, fault),
        _ => lists(maps, draw),
    }
}

// `insert`, or the fault: of one key in a thousand it keeps the old value.
fn insert<S: BuildHasher + Clone>(map: &Map<S>, key: Noted, value: u64, fault: Fault) -> Option<u64> {
    if fault == Fault::Insert && key.name % 1000 == 7 {
        if let Some(old) = map.get(&key) {
            return Some(*old);
        }
    }
    map.insert(key, value)
}

fn keyed<S: BuildHasher + Clone>(map: &Map<S>, draw: Draw, fault: Fault) -> Told {
    let key = draw.key();
    match draw.kind {
        0..=3 => ("insert", Answer::number(insert(map, key, draw.value, fault))),
        4 => ("get", Answer::pair(map.get(&key).map(|found| (*found.key(), *found.value())))),
        5 => match map.get_mut(&key) {
            Some(mut found) => {
                *found = found.wrapping_add(1);
                ("get_mut", Answer::Pair(*found.key(), *found.value()))
            }
            None => ("get_mut", Answer::None),
        },
        6 => ("remove", Answer::pair(map.remove(&key))),
        7 => ("remove_if", Answer::pair(map.remove_if(&key, |_, value| *value % 2 == 0))),
        8 => {
            let removed = map.remove_if_mut(&key, |_, value| {
                *value = value.wrapping_add(1);
                *value % 3 == 0
            });
            ("remove_if_mut", Answer::pair(removed))
        }
        9 => {
            map.alter(&key, |_, value| value.wrapping_mul(3).wrapping_add(1));
            ("alter, view", Answer::pair(map.view(&key, |key, value| (*key, *value))))
        }
        10 => ("contains_key", Answer::yes(map.contains_key(&key))),
        _ => match map.try_get(&key) {
            TryResult::Present(found) => ("try_get", Answer::Pair(*found.key(), *found.value())),
            _ => ("try_get", Answer::Number(map.determine_map(&key) as u64)),
        },
    }
}

fn entries<S: BuildHasher + Clone>(map: &Map<S>, draw: Draw, fault: Fault) -> Told {
    let entry = match draw.value % 2 {
        0 => map.entry(draw.key()),
        _ => map.try_entry(draw.key()).unwrap(),
    };
    match entry {
        Entry::Occupied(occupied) if draw.kind < 6 => take_occupied(occupied, draw, fault),
        entry => take_any(entry, draw),
    }
}

fn take_occupied<S: BuildHasher>(
    mut entry: OccupiedEntry<'_, Noted, u64, S>,
    draw: Draw,
    fault: Fault,
) -> Told {
    match draw.kind {
        0 => ("occupied get", Answer::Pair(*entry.key(), *entry.get())),
        1 => {
            *entry.get_mut() = draw.value;
            ("occupied into_ref", Answer::Number(*entry.into_ref().value()))
        }
        2 => ("occupied insert", Answer::Number(entry.insert(draw.value))),
        3 => ("remove", Answer::Number(entry.remove())),
        4 => {
            let (key, value) = entry.remove_entry();
            let told = if fault == Fault::RemoveEntry { draw.key() } else { key };
            ("remove_entry", Answer::Pair(told, value))
        }
        _ => {
            let (key, value) = entry.replace_entry(draw.value);
            ("replace_entry", Answer::Pair(key, value))
        }
    }
}

fn take_any<S: BuildHasher>(entry: Entry<'_, Noted, u64, S>, draw: Draw) -> Told {
    let value = draw.value;
    match draw.kind {
        0 | 1 => ("into_key", Answer::Key(entry.into_key())),
        2 | 3 => ("key", Answer::Key(*entry.key())),
        4..=6 => ("or_insert", Answer::Number(*entry.or_insert(value))),
        7 => ("or_default", Answer::Number(*entry.or_default())),
        8 => ("or_insert_with", Answer::Number(*entry.or_insert_with(|| value))),
        9 => {
            let found = entry.or_try_insert_with(|| if value % 3 == 0 { Err(value) } else { Ok(value) });
            match found {
                Ok(found) => ("or_try_insert_with", Answer::Pair(*found.key(), *found.value())),
                Err(value) => ("or_try_insert_with", Answer::Number(value)),
            }
        }
        10 => {
            let entry = entry.and_modify(|value| *value = value.wrapping_add(1));
            ("and_modify", Answer::Number(*entry.or_insert(value)))
        }
        _ => {
            let found = match entry {
                Entry::Occupied(mut entry) => {
                    entry.insert(value);
                    entry.into_ref()
                }
                Entry::Vacant(entry) => entry.insert(value),
            };
            ("entry insert", Answer::Pair(*found.key(), *found.value()))
        }
    }
}

fn sets<S: BuildHasher + Clone>(maps: &Maps<S>, draw: Draw) -> Told {
    let (set, key) = (&maps.set, draw.key());
    match draw.kind {
        0..=3 => ("set insert", Answer::yes(set.insert(key))),
        4 => ("set remove", Answer::key(set.remove(&key))),
        5 => ("set remove_if", Answer::key(set.remove_if(&key, |key| key.note % 2 == 0))),
        6 => ("set get", Answer::key(set.get(&key).map(|found| *found.key()))),
        7 => ("set contains", Answer::yes(set.contains(&key))),
        8 => {
            set.retain(|key| key.name % 16 != draw.value % 16);
            ("set retain", Answer::yes(set.is_empty()))
        }
        9 => ("set len", Answer::Number(set.len() as u64)),
        _ => {
            let mut walk = Walk::default();
            for found in set.iter() {
                walk.add(maps.map.determine_map(found.key()), *found.key(), 0);
            }
            ("set iter", walk.ended())
        }
    }
}

fn walks<S: BuildHasher + Clone>(map: &Map<S>, draw: Draw, fault: Fault) -> Told {
    match draw.kind {
        0..=3 => ("iter", all(map, fault)),
        4 | 5 => {
            for mut found in map.iter_mut() {
                *found = found.wrapping_add(draw.value);
            }
            ("iter_mut", all(map, fault))
        }
        6 => {
            map.retain(|key, value| {
                *value = value.wrapping_add(1);
                key.name % 16 != draw.value % 16
            });
            ("retain", all(map, fault))
        }
        7 => {
            map.alter_all(|_, value| value.wrapping_mul(3) % 1000);
            ("alter_all", all(map, fault))
        }
        8 => ("len", Answer::Number(map.len() as u64)),
        9 => ("is_empty", Answer::yes(map.is_empty())),
        10 => {
            map.shrink_to_fit();
            ("shrink_to_fit", all(map, fault))
        }
        _ => {
            if draw.value % 16 == 0 {
                map.clear();
            }
            ("clear", all(map, fault))
        }
    }
}

// What a walk over the map gives, or the fault: it ends before the last shard.
fn all<S: BuildHasher + Clone>(map: &Map<S>, fault: Fault) -> Answer {
    let mut walk = Walk::default();
    for found in map.iter() {
        let shard = map.determine_map(found.key());
        if fault == Fault::Walk && shard == SHARDS - 1 {
            break;
        }
        walk.add(shard, *found.key(), *found.value());
    }
    walk.ended()
}

fn lists<S: BuildHasher + Clone>(maps: &mut Maps<S>, draw: Draw) -> Told {
    match draw.kind {
        0..=4 => {
            maps.map.extend(pairs(draw));
            ("extend", Answer::Number(maps.map.len() as u64))
        }
        5..=7 => {
            maps.set.extend((0..draw.value % 8).map(|step| draw.key_after(step)));
            ("set extend", Answer::Number(maps.set.len() as u64))
        }
        _ => {
            let map = DashMap::<Noted, u64, FixedState>::from_iter(pairs(draw));
            let mut walk = Walk::default();
            for (key, value) in map {
                walk.add(0, key, value);
            }
            ("from_iter, into_iter", walk.ended())
        }
    }
}

// Some pairs, of which two may have equal keys.
fn pairs(draw: Draw) -> impl Iterator<Item = (Noted, u64)> {
    (0..draw.value % 8).map(move |step| {
        (Noted { note: step, ..draw.key_after(step % 5) }, draw.value + step)
    })
}
