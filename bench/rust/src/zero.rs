//! The hasher of the worst case.

use std::hash::{BuildHasher, Hasher};

/// Each hash is 0.
#[derive(Clone, Copy)]
pub struct ZeroState;

pub struct ZeroHasher;

impl BuildHasher for ZeroState {
    type Hasher = ZeroHasher;

    #[inline]
    fn build_hasher(&self) -> ZeroHasher {
        ZeroHasher
    }
}

impl Hasher for ZeroHasher {
    #[inline]
    fn write(&mut self, _bytes: &[u8]) {}

    #[inline]
    fn finish(&self) -> u64 {
        0
    }
}
