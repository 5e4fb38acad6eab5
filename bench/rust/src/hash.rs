//! The hasher that both programs have.

use std::hash::{BuildHasher, Hasher};

/// FNV-1a on 64 bits, as the default hasher of the map that is measured.
#[derive(Clone, Copy)]
pub struct FixedState;

pub struct FixedHasher(u64);

impl BuildHasher for FixedState {
    type Hasher = FixedHasher;

    #[inline]
    fn build_hasher(&self) -> FixedHasher {
        FixedHasher(0xcbf29ce484222325)
    }
}

impl Hasher for FixedHasher {
    #[inline]
    fn write(&mut self, bytes: &[u8]) {
        for byte in bytes {
            self.0 = (self.0 ^ u64::from(*byte)).wrapping_mul(0x100000001b3);
        }
    }

    #[inline]
    fn finish(&self) -> u64 {
        self.0
    }
}
