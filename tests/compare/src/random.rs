//! A small generator of repeatable random numbers (SplitMix64).

use crate::write::{licence, provisional, Bytes};

#[derive(Clone)]
pub struct Random {
    state: u64,
}

impl Random {
    /// A generator of its own for a named part of the run, so that one part
    /// may change without changing the others.
    pub fn new(seed: u64, part: &str) -> Random {
        let mut random = Random { state: seed };
        for byte in part.bytes() {
            random.state = random.next() ^ u64::from(byte);
        }
        random
    }

    pub fn next(&mut self) -> u64 {
        self.state = self.state.wrapping_add(0x9E37_79B9_7F4A_7C15);
        let mut mixed = self.state;
        mixed = (mixed ^ (mixed >> 30)).wrapping_mul(0xBF58_476D_1CE4_E5B9);
        mixed = (mixed ^ (mixed >> 27)).wrapping_mul(0x94D0_49BB_1331_11EB);
        mixed ^ (mixed >> 31)
    }

    /// A number from 0 up to, not including, the limit.
    pub fn below(&mut self, limit: usize) -> usize {
        (self.next() % limit as u64) as usize
    }

    pub fn byte_below(&mut self, limit: u8) -> u8 {
        self.below(usize::from(limit)) as u8
    }

    pub fn between(&mut self, first: usize, last: usize) -> usize {
        first + self.below(last - first + 1)
    }

    /// True in the given share of hundred.
    pub fn percent(&mut self, share: usize) -> bool {
        self.below(100) < share
    }

    pub fn choose<'a, T>(&mut self, list: &'a [T]) -> &'a T {
        &list[self.below(list.len())]
    }

    /// A licence, in the given share of hundred a provisional one.
    pub fn licence(&mut self, provisionally: usize, issuer: u8, grant: &[u8]) -> Bytes {
        match self.percent(provisionally) {
            true => provisional(issuer, grant),
            false => licence(issuer, grant),
        }
    }

    pub fn shuffle<T>(&mut self, list: &mut [T]) {
        for place in (1..list.len()).rev() {
            list.swap(place, self.below(place + 1));
        }
    }
}
