//! The hashers of the map that is compared.

use std::hash::{BuildHasher, Hasher};

/// FNV-1a on 64 bits.
#[derive(Clone, Copy, Default)]
pub struct FixedState;

/// Key `k` goes to shard `k` modulo the amount.
#[derive(Clone, Copy)]
pub struct PlaceState;

/// Every hash is 0.
#[derive(Clone, Copy)]
pub struct ZeroState;

pub struct FixedHasher(u64);

pub struct PlaceHasher(u64);

pub struct ZeroHasher;

impl BuildHasher for FixedState {
    type Hasher = FixedHasher;

    fn build_hasher(&self) -> FixedHasher {
        FixedHasher(0xcbf2_9ce4_8422_2325)
    }
}

impl Hasher for FixedHasher {
    fn write(&mut self, bytes: &[u8]) {
        for byte in bytes {
            self.0 = (self.0 ^ u64::from(*byte)).wrapping_mul(0x100_0000_01b3);
        }
    }

    fn finish(&self) -> u64 {
        self.0
    }
}

impl BuildHasher for PlaceState {
    type Hasher = PlaceHasher;

    fn build_hasher(&self) -> PlaceHasher {
        PlaceHasher(0)
    }
}

impl Hasher for PlaceHasher {
    fn write(&mut self, bytes: &[u8]) {
        if let Ok(bytes) = bytes.try_into() {
            self.0 = u64::from_le_bytes(bytes).wrapping_mul(1 << 55);
        }
    }

    fn finish(&self) -> u64 {
        self.0
    }
}

impl BuildHasher for ZeroState {
    type Hasher = ZeroHasher;

    fn build_hasher(&self) -> ZeroHasher {
        ZeroHasher
    }
}

impl Hasher for ZeroHasher {
    fn write(&mut self, _bytes: &[u8]) {}

    fn finish(&self) -> u64 {
        0
    }
}
