//! What one thread does of the work.

use crate::keys::{Keys, Random, key};
use crate::work::{ABSENT, HOLDS, PAIRS, STEPS, Work};
use dashmap::DashMap;
use std::hash::BuildHasher;
use std::time::Instant;

pub type Map<S> = DashMap<u64, u64, S>;

struct Mix {
    get: u64,
    insert: u64,
    remove: u64,
}

const READ: Mix = Mix { get: 98, insert: 1, remove: 1 };
const EXCHANGE: Mix = Mix { get: 10, insert: 40, remove: 40 };
const GROW: Mix = Mix { get: 5, insert: 80, remove: 5 };

/// The first of a thread's numbers among `count`, and the first that is not.
pub fn share_of(count: usize, index: usize, threads: usize) -> (u64, u64) {
    let first = count * index / threads;
    let end = count * (index + 1) / threads;
    (first as u64, end as u64)
}

/// A thread's share of the numbers, and what it came to.
#[derive(Clone, Copy)]
pub struct Worker<D> {
    pub index: usize,
    pub threads: usize,
    pub pairs: usize,
    pub keys: D,
    pub steps: u64,
    pub sum: u64,
    pub worst: u128,
}

impl<D: Keys> Worker<D> {
    // Counts on the thread's own stack: workers share cache lines.
    pub fn work_alone<S: BuildHasher + Clone>(&mut self, map: &Map<S>, work: Work) {
        let mut own = *self;
        own.work(map, work);
        *self = own;
    }

    fn work<S: BuildHasher + Clone>(&mut self, map: &Map<S>, work: Work) {
        match work {
            Work::Hit | Work::HitMask | Work::RandomHit | Work::SmallHit => self.look_up(map, STEPS, 0),
            Work::Miss | Work::MissMask | Work::SmallMiss => self.look_up(map, STEPS, ABSENT),
            Work::Hostile => self.look_up(map, HOLDS, 0),
            Work::Insert | Work::Insert0 | Work::Insert0Mask | Work::RandomInsert0 => self.insert(map),
            Work::Memory => self.insert(map),
            Work::Worst => self.insert_timed(map),
            Work::Remove | Work::RemoveMask | Work::RandomRemove => self.remove(map),
            Work::Iterate => self.walk(map),
            Work::Retain => self.retain(map),
            Work::GetMut => self.add_by_reference(map),
            Work::SmallUpdate => self.update(map),
            Work::SmallCycle => self.cycle(map),
            Work::Alter => self.alter(map),
            Work::Entry => self.add_by_entry(map),
            Work::Contend => self.contend(map),
            Work::Hold => self.hold(map),
            Work::Read | Work::ReadMask => self.mix(map, &READ),
            Work::Exchange | Work::ExchangeMask => self.mix(map, &EXCHANGE),
            Work::Grow | Work::GrowMask => self.mix(map, &GROW),
        }
    }

    #[inline(always)]
    fn count(&mut self, found: u64) {
        self.steps += 1;
        self.sum = self.sum.wrapping_add(found);
    }

    fn share(&self, count: usize) -> (u64, u64) {
        share_of(count, self.index, self.threads)
    }

    fn look_up<S: BuildHasher + Clone>(&mut self, map: &Map<S>, steps: usize, from: u64) {
        let (first, end) = self.share(steps);
        let (keys, pairs) = (self.keys, self.pairs as u64);
        for step in first..end {
            let number = keys.below(step.wrapping_mul(7), pairs);
            self.find(map, keys.key(from + number));
        }
    }

    fn insert<S: BuildHasher + Clone>(&mut self, map: &Map<S>) {
        let (first, end) = self.share(self.pairs);
        for number in first..end {
            self.put(map, self.keys.key(number), number);
        }
    }

    fn insert_timed<S: BuildHasher + Clone>(&mut self, map: &Map<S>) {
        let (first, end) = self.share(self.pairs);
        for number in first..end {
            let key = self.keys.key(number);
            let start = Instant::now();
            self.put(map, key, number);
            self.worst = self.worst.max(start.elapsed().as_nanos());
        }
    }

    fn remove<S: BuildHasher + Clone>(&mut self, map: &Map<S>) {
        let (first, end) = self.share(self.pairs);
        for number in first..end {
            self.take(map, self.keys.key(number));
        }
    }

    fn walk<S: BuildHasher + Clone>(&mut self, map: &Map<S>) {
        for found in map.iter() {
            self.count(*found.value());
        }
    }

    fn retain<S: BuildHasher + Clone>(&mut self, map: &Map<S>) {
        map.retain(|_, value| {
            self.count(*value);
            true
        });
    }

    fn add_by_reference<S: BuildHasher + Clone>(&mut self, map: &Map<S>) {
        let (first, end) = self.share(self.pairs);
        for number in first..end {
            self.add(map, self.keys.key(number));
        }
    }

    fn alter<S: BuildHasher + Clone>(&mut self, map: &Map<S>) {
        let (first, end) = self.share(self.pairs);
        for number in first..end {
            self.alter_one(map, number);
        }
    }

    fn update<S: BuildHasher + Clone>(&mut self, map: &Map<S>) {
        let (first, end) = self.share(STEPS);
        for step in first..end {
            let number = self.keys.below(step, self.pairs as u64);
            if let Some(mut found) = map.get_mut(&self.keys.key(number)) {
                *found = found.wrapping_add(1);
                self.count(1);
            }
        }
    }

    fn cycle<S: BuildHasher + Clone>(&mut self, map: &Map<S>) {
        let (first, end) = self.share(self.pairs);
        let (from, to) = self.share(STEPS);
        for step in from..to {
            let number = self.keys.below(step, end - first);
            let key = self.keys.key(first + number);
            self.take(map, key);
            self.put(map, key, step);
        }
    }

    fn add_by_entry<S: BuildHasher + Clone>(&mut self, map: &Map<S>) {
        let (first, end) = self.share(2 * PAIRS);
        for number in first..end {
            let mut found = map.entry(self.keys.key(number)).or_insert(0);
            let value = found.wrapping_add(1);
            *found = value;
            self.count(value);
        }
    }

    fn contend<S: BuildHasher + Clone>(&mut self, map: &Map<S>) {
        let (first, end) = self.share(STEPS);
        for _ in first..end {
            self.alter_one(map, 0);
        }
    }

    fn hold<S: BuildHasher + Clone>(&mut self, map: &Map<S>) {
        let (first, end) = self.share(HOLDS);
        for _ in first..end {
            if let Some(mut found) = map.get_mut(&self.keys.key(0)) {
                let mut value = *found;
                for _ in 0..200u64 {
                    value = key(value);
                }
                *found = value;
                self.count(1);
            }
        }
    }

    fn mix<S: BuildHasher + Clone>(&mut self, map: &Map<S>, mix: &Mix) {
        let (first, end) = self.share(self.pairs);
        let (from, to) = self.share(STEPS);
        let mut random = Random::new(first + 1);
        for _ in from..to {
            let drawn = random.next();
            let number = self.keys.below(drawn >> 20, end - first);
            let key = self.keys.key(first + number);
            self.step(map, mix, drawn & 0xfffff, key);
        }
    }

    #[inline]
    fn step<S: BuildHasher + Clone>(&mut self, map: &Map<S>, mix: &Mix, drawn: u64, key: u64) {
        let kind = drawn % 100;
        if kind < mix.get {
            self.find(map, key);
        } else if kind < mix.get + mix.insert {
            self.put(map, key, drawn);
        } else if kind < mix.get + mix.insert + mix.remove {
            self.take(map, key);
        } else {
            self.add(map, key);
        }
    }

    #[inline(always)]
    fn find<S: BuildHasher + Clone>(&mut self, map: &Map<S>, key: u64) {
        self.count(map.get(&key).map_or(1, |found| *found.value()));
    }

    #[inline(always)]
    fn put<S: BuildHasher + Clone>(&mut self, map: &Map<S>, key: u64, value: u64) {
        self.count(map.insert(key, value).unwrap_or(1));
    }

    #[inline(always)]
    fn take<S: BuildHasher + Clone>(&mut self, map: &Map<S>, key: u64) {
        self.count(map.remove(&key).map_or(1, |(_, value)| value));
    }

    #[inline(always)]
    fn add<S: BuildHasher + Clone>(&mut self, map: &Map<S>, key: u64) {
        match map.get_mut(&key) {
            Some(mut found) => {
                let value = found.wrapping_add(1);
                *found = value;
                self.count(value);
            }
            None => self.count(1),
        }
    }

    #[inline(always)]
    fn alter_one<S: BuildHasher + Clone>(&mut self, map: &Map<S>, number: u64) {
        map.alter(&self.keys.key(number), |_, value| value.wrapping_add(1));
        self.count(1);
    }
}
