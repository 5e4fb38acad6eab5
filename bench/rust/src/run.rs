//! A map that is made and filled, the threads that work on it, and the time that they take.

use crate::hash::FixedState;
use crate::keys::{Keys, Masked, Mixed};
use crate::work::{Form, Work};
use crate::worker::{Map, Worker};
use crate::zero::ZeroState;
use std::collections::hash_map::RandomState;
use std::fmt;
use std::hash::BuildHasher;
use std::time::Instant;

/// How many shards a map has, where the command line doesn't say.
pub const SHARDS: usize = 16;

/// What was measured.
pub struct Measured {
    pub nanoseconds: u128,
    pub steps: u64,
    pub sum: u64,
    pub bytes: u64,
}

impl fmt::Display for Measured {
    fn fmt(&self, f: &mut fmt::Formatter) -> fmt::Result {
        let Measured { nanoseconds, steps, sum, bytes } = *self;
        write!(f, "ns {nanoseconds} ops {steps} sum {sum} bytes {bytes}")
    }
}

fn resident() -> u64 {
    let text = std::fs::read_to_string("/proc/self/statm").unwrap_or_default();
    text.split_whitespace().nth(1).and_then(|it| it.parse::<u64>().ok()).unwrap_or(0) * 4096
}

/// The time of a work by so many threads, on a map of so many shards.
pub fn measure(work: Work, threads: usize, shards: usize) -> Measured {
    match work.form() {
        Form::Mixed => measure_by(work, threads, shards, Mixed, FixedState),
        Form::Masked => measure_by(work, threads, shards, Masked, FixedState),
        Form::Random => measure_by(work, threads, shards, Mixed, RandomState::new()),
        Form::Zero => measure_by(work, threads, shards, Mixed, ZeroState),
    }
}

// The same by these keys and this hasher.
fn measure_by<D: Keys, S: BuildHasher + Clone + Send + Sync>(
    work: Work,
    threads: usize,
    shards: usize,
    keys: D,
    hasher: S,
) -> Measured {
    let before = resident();
    let map = Map::with_capacity_and_hasher_and_shard_amount(work.room(), hasher, shards);
    for number in 0..work.filled() as u64 {
        map.insert(keys.key(number), number);
    }
    let pairs = work.pairs();
    let idle = |index| Worker { index, threads, pairs, keys, steps: 0, sum: 0, worst: 0 };
    let mut workers: Vec<Worker<D>> = (0..threads).map(idle).collect();
    let mut measured = Measured {
        nanoseconds: time(&mut workers, |worker| worker.work_alone(&map, work)),
        steps: 0,
        sum: 0,
        bytes: resident().saturating_sub(before),
    };
    for worker in &workers {
        measured.steps += worker.steps;
        measured.sum = measured.sum.wrapping_add(worker.sum);
    }
    if work == Work::Worst {
        measured.steps = 1;
        measured.nanoseconds = workers.iter().map(|worker| worker.worst).max().unwrap_or(0);
    }
    measured
}

/// How many nanoseconds the calls at the workers take, each in a thread of its own.
pub fn time<W: Send>(workers: &mut [W], one: impl Fn(&mut W) + Sync) -> u128 {
    let start = Instant::now();
    std::thread::scope(|scope| {
        let (first, others) = workers.split_first_mut().unwrap();
        for worker in others {
            let one = &one;
            scope.spawn(move || one(worker));
        }
        one(first);
    });
    start.elapsed().as_nanos()
}
