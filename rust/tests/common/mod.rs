//! What several tests share.
#![allow(dead_code)]
use brothpillow::{Memory, Refusal, Set, Sizes};

/// Document 01's tiny sizes.
pub const TINY: Sizes = Sizes { s: 9, m: 4, d: 2, v: 1, r: 2, p: 1 };

/// An empty set of document 01's tiny sizes.
pub fn tiny() -> Set {
    Set::new(TINY).expect("tiny sizes are allowed")
}

/// A set of these ids.
pub fn set_of(sizes: Sizes, ids: impl IntoIterator<Item = i64>) -> Set {
    let mut set = Set::new(sizes).expect("sizes are allowed");
    ids.into_iter().for_each(|id| set.set(id).expect("there is room"));
    set
}

/// A ranked set of these ids.
pub fn ranked(sizes: Sizes, ids: impl IntoIterator<Item = i64>) -> Set {
    let mut set = set_of(sizes, ids);
    set.into_ranked().expect("an open set");
    set
}

pub fn listed<M: Memory>(set: &Set<M>) -> Vec<i64> {
    set.iter().collect::<Result<_, Refusal>>().expect("a set")
}

/// A copy of the four slices, to see whether anything changed.
pub fn copied<M: Memory>(set: &Set<M>) -> (Vec<u64>, Vec<u32>, Vec<u32>, Vec<u64>) {
    let x = set.slices();
    (x.pages.to_vec(), x.rows.to_vec(), x.blocks.to_vec(), x.table.to_vec())
}

/// A fixed sequence of numbers.
pub struct Random(u64);

impl Random {
    pub fn new(seed: u64) -> Random {
        Random(seed.wrapping_mul(0x9e37_79b9_7f4a_7c15) | 1)
    }

    pub fn next(&mut self) -> u64 {
        self.0 ^= self.0 << 13;
        self.0 ^= self.0 >> 7;
        self.0 ^= self.0 << 17;
        self.0.wrapping_mul(0x2545_f491_4f6c_dd1d)
    }

    pub fn below(&mut self, n: u64) -> u64 {
        ((u128::from(self.next()) * u128::from(n)) >> 64) as u64
    }
}
