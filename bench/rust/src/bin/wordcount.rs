//! `wordcount -t THREADS -n TOP FILE..`: what `crates/example_wordcount` does, over the Rust crate `dashmap`, with the same hasher.

#[path = "../hash.rs"]
mod hash;

use bstr::ByteSlice;
use dashmap::DashMap;
use hash::FixedState;
use std::io::{BufWriter, Write};
use std::{env, fs, io, thread};

type Counts<'t> = DashMap<&'t [u8], u64, FixedState>;

fn count_words<'t>(counts: &Counts<'t>, text: &'t [u8]) {
    for word in text.fields_with(|c| !c.is_alphanumeric()) {
        let mut count = counts.entry(word).or_insert(0);
        *count = count.saturating_add(1);
    }
}

fn cut(text: &[u8], size: usize) -> usize {
    let from = size.min(text.len());
    let more = text[from..].iter().position(|byte| byte.is_ascii() && !byte.is_ascii_alphanumeric());
    more.map_or(text.len(), |more| from + more)
}

fn parts(text: &[u8], count: usize) -> Vec<&[u8]> {
    let size = text.len() / count;
    let mut parts = Vec::with_capacity(count);
    let mut rest = text;
    for _ in 1..count {
        let (text, behind) = rest.split_at(cut(rest, size));
        parts.push(text);
        rest = behind;
    }
    parts.push(rest);
    parts
}

fn main() -> io::Result<()> {
    let words: Vec<String> = env::args().collect();
    let (threads, top) = (words[2].parse().unwrap(), words[4].parse().unwrap());
    let texts: Vec<Vec<u8>> = words[5..].iter().map(fs::read).collect::<Result<_, _>>()?;
    let counts = Counts::with_hasher(FixedState);
    for text in &texts {
        thread::scope(|scope| {
            for part in parts(text, threads) {
                scope.spawn(|| count_words(&counts, part));
            }
        });
    }
    let mut rows: Vec<(u64, &[u8])> = counts.into_iter().map(|(word, count)| (count, word)).collect();
    rows.sort_unstable_by(|a, b| b.0.cmp(&a.0).then_with(|| a.1.cmp(b.1)));
    let mut output = BufWriter::new(io::stdout());
    for (count, word) in rows.iter().take(top) {
        write!(output, "{count} ")?;
        output.write_all(word)?;
        output.write_all(b"\n")?;
    }
    output.flush()
}
