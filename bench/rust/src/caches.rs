//! A cache as one writes it over the Rust crate: a look-up, and where nothing is there an entry's shard, held while the value is computed.

use crate::hash::FixedState;
use crate::keys::{Random, key};
use crate::run::{Measured, time};
use crate::work::SMALL;
use crate::worker::{Map, share_of};
use crate::zipf::below_million;
use dashmap::SharedValue;

/// How often a cache is asked in all.
const ASKS: usize = 1_000_000;

/// How many values a cache keeps at most that is asked for more.
const MOST: usize = 100_000;

/// One kind of work.
#[derive(Clone, Copy, PartialEq, Eq)]
pub enum Cached {
    Hit,
    Mix,
}

impl Cached {
    pub fn of_name(name: &str) -> Option<Cached> {
        Some(match name {
            "memo-hit" => Cached::Hit,
            "memo-mix" => Cached::Mix,
            _ => return None,
        })
    }
}

struct Cache {
    map: Map<FixedState>,
    bound: usize,
}

impl Cache {
    fn new(shards: usize) -> Self {
        Cache {
            map: Map::with_hasher_and_shard_amount(FixedState, shards),
            bound: (MOST + shards - 1) / shards,
        }
    }

    #[inline]
    fn ask(&self, key: u64) -> u64 {
        if let Some(found) = self.map.get(&key) {
            return *found;
        }
        let mut shard = self.map.shards()[self.map.determine_map(&key)].write();
        if let Some(found) = shard.get(&key) {
            return *found.get();
        }
        let value = key.wrapping_mul(key).wrapping_add(1);
        if shard.len() >= self.bound {
            let first = shard.keys().next().copied();
            first.and_then(|gone| shard.remove(&gone));
        }
        if shard.len() < self.bound {
            shard.insert(key, SharedValue::new(value));
        }
        value
    }
}

/// A thread, and what it came to.
struct Worker {
    index: usize,
    threads: usize,
    steps: u64,
    sum: u64,
}

impl Worker {
    fn work(&mut self, cache: &Cache, cached: Cached) {
        let (first, end) = share_of(ASKS, self.index, self.threads);
        let mut random = Random::new(first.wrapping_add(1));
        for step in first..end {
            let number = match cached {
                Cached::Hit => step.wrapping_mul(7) % SMALL as u64,
                Cached::Mix => below_million(random.next()),
            };
            self.steps += 1;
            self.sum = self.sum.wrapping_add(cache.ask(key(number)));
        }
    }
}

/// The time of a work by so many threads, on a cache of so many shards.
pub fn measure(cached: Cached, threads: usize, shards: usize) -> Measured {
    let cache = Cache::new(shards);
    if cached == Cached::Hit {
        for number in 0..SMALL as u64 {
            cache.ask(key(number));
        }
    }
    let idle = |index| Worker { index, threads, steps: 0, sum: 0 };
    let mut workers: Vec<Worker> = (0..threads).map(idle).collect();
    let nanoseconds = time(&mut workers, |worker| worker.work(&cache, cached));
    assert!(cache.map.len() <= cache.bound * shards);
    Measured {
        nanoseconds,
        steps: workers.iter().map(|worker| worker.steps).sum(),
        sum: workers.iter().fold(0u64, |sum, worker| sum.wrapping_add(worker.sum)),
        bytes: 0,
    }
}
