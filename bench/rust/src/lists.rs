//! Calls on a whole list or map, which start their threads themselves, and walks of a map's owner.

use crate::hash::FixedState;
use crate::keys::key;
use crate::run::Measured;
use crate::work::PAIRS;
use rayon::prelude::*;
use std::time::Instant;

type Map = crate::worker::Map<FixedState>;

/// One call that is measured.
#[derive(Clone, Copy, PartialEq, Eq)]
pub enum Call {
    Extend,
    Extend0,
    ParExtend,
    ParExtend0,
    ParMapCollect,
    AloneIterate,
    ViewIterate,
}

impl Call {
    pub fn of_name(name: &str) -> Option<Call> {
        Some(match name {
            "extend" => Call::Extend,
            "extend0" => Call::Extend0,
            "par-extend" => Call::ParExtend,
            "par-extend0" => Call::ParExtend0,
            "par-map-collect" => Call::ParMapCollect,
            "alone-iterate" => Call::AloneIterate,
            "view-iterate" => Call::ViewIterate,
            _ => return None,
        })
    }

    fn room(self) -> usize {
        match self {
            Call::Extend0 | Call::ParExtend0 => 0,
            _ => PAIRS,
        }
    }
}

/// The time of a call on a map of so many shards and a list, with so many workers.
pub fn measure(call: Call, workers: usize, shards: usize) -> Measured {
    let mut map = Map::with_capacity_and_hasher_and_shard_amount(call.room(), FixedState, shards);
    let list: Vec<(u64, u64)> = (0..PAIRS as u64).map(|number| (key(number), number)).collect();
    match call {
        Call::ParMapCollect => {
            map.extend(list);
            collect(&map, workers)
        }
        Call::AloneIterate => {
            map.extend(list);
            walk(|| map.iter().map(|pair| *pair.value()))
        }
        Call::ViewIterate => {
            map.extend(list);
            let view = map.into_read_only();
            walk(|| view.iter().map(|(_, value)| *value))
        }
        _ => put(map, list, call, workers),
    }
}

fn measured(nanoseconds: u128, steps: u64, sum: u64) -> Measured {
    Measured { nanoseconds, steps, sum, bytes: 0 }
}

fn pool(workers: usize) -> rayon::ThreadPool {
    rayon::ThreadPoolBuilder::new().num_threads(workers).build().unwrap()
}

fn put(mut map: Map, list: Vec<(u64, u64)>, call: Call, workers: usize) -> Measured {
    let pool = pool(workers);
    let start = Instant::now();
    match call {
        Call::Extend | Call::Extend0 => map.extend(list),
        _ => pool.install(|| map.par_extend(list)),
    }
    measured(start.elapsed().as_nanos(), PAIRS as u64, map.len() as u64)
}

fn collect(map: &Map, workers: usize) -> Measured {
    let pool = pool(workers);
    let start = Instant::now();
    let values: Vec<u64> = pool.install(|| map.par_iter().map(|pair| *pair.value()).collect());
    let nanoseconds = start.elapsed().as_nanos();
    let sum = values.iter().fold(0u64, |sum, value| sum.wrapping_add(*value));
    measured(nanoseconds, values.len() as u64, sum)
}

// A walk over values.
fn walk<I: Iterator<Item = u64>>(values: impl FnOnce() -> I) -> Measured {
    let start = Instant::now();
    let (mut steps, mut sum) = (0u64, 0u64);
    for value in values() {
        steps += 1;
        sum = sum.wrapping_add(value);
    }
    measured(start.elapsed().as_nanos(), steps, sum)
}
