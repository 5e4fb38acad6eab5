//! `rust_bench WORK THREADS [SHARDS]`: what `tool_bench` does, over the Rust crate `dashmap`, with the same keys, hasher and shards.

mod caches;
mod hash;
mod keys;
mod lists;
mod run;
mod texts;
mod work;
mod worker;
mod zero;
mod zipf;

use caches::Cached;
use lists::Call;
use run::{Measured, SHARDS};
use texts::Text;
use work::Work;

fn measure(name: &str, threads: usize, shards: usize) -> Option<Measured> {
    if let Some(call) = Call::of_name(name) {
        return Some(lists::measure(call, threads, shards));
    }
    if let Some(text) = Text::of_name(name) {
        return Some(texts::measure(text, threads, shards));
    }
    if let Some(cached) = Cached::of_name(name) {
        return Some(caches::measure(cached, threads, shards));
    }
    Some(run::measure(Work::of_name(name)?, threads, shards))
}

fn main() {
    let words: Vec<String> = std::env::args().skip(1).collect();
    let threads = words[1].parse().unwrap();
    let shards = words.get(2).map_or(SHARDS, |word| word.parse().unwrap());
    println!("{}", measure(&words[0], threads, shards).expect("no such work"));
}
