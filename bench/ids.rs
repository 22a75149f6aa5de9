//! The ids of a run, the same each time: clusters along a walk, as the nodes of roads have them, and lists made of such.

/// A fixed sequence of numbers.
pub struct Random(u64);

impl Random {
    pub fn new(seed: u64) -> Random {
        Random(seed.wrapping_mul(0x9e37_79b9_7f4a_7c15) | 1)
    }

    fn next(&mut self) -> u64 {
        self.0 ^= self.0 << 13;
        self.0 ^= self.0 >> 7;
        self.0 ^= self.0 << 17;
        self.0.wrapping_mul(0x2545_f491_4f6c_dd1d)
    }

    pub fn below(&mut self, n: u64) -> u64 {
        ((u128::from(self.next()) * u128::from(n)) >> 64) as u64
    }

    /// A list in random order.
    pub fn mixed(&mut self, list: &[i64]) -> Vec<i64> {
        let mut list = list.to_vec();
        for at in (1..list.len()).rev() {
            list.swap(at, self.below(at as u64 + 1) as usize);
        }
        list
    }
}

/// Most ids of a cluster, and the longest step inside one.
const CLUSTER: u64 = 32;
const STEP: u64 = 3;

/// So many ids up to a last one, rising: clusters of 1 to 32 ids, at most 3 apart, spread evenly over all the room that there is.
pub struct Walk {
    random: Random,
    left: u64,
    last: u64,
    at: u64,
    in_cluster: u64,
}

impl Walk {
    pub fn new(ids: u64, last: u64) -> Walk {
        assert!(last > STEP * ids, "no room for so many ids");
        Walk { random: Random::new(1), left: ids, last, at: 0, in_cluster: 0 }
    }

    /// How far the next id is from this one. A jump leaves room for the longest steps up to the last id.
    fn step(&mut self) -> u64 {
        let step = 1 + self.random.below(STEP);
        if self.in_cluster > 0 {
            self.in_cluster -= 1;
            return step;
        }
        self.in_cluster = self.random.below(CLUSTER);
        let clusters = 2 * self.left / CLUSTER + 1;
        let room = self.last - self.at - STEP * (self.left + 1);
        step + self.random.below(2 * room / clusters + 1).min(room)
    }
}

impl Iterator for Walk {
    type Item = i64;

    fn next(&mut self) -> Option<i64> {
        self.left = self.left.checked_sub(1)?;
        self.at = if self.left == 0 { self.last } else { self.at + self.step() };
        Some(self.at as i64)
    }
}

/// So many ids in each of so many chunks of 2^25, rising, all over the chunk.
pub fn in_chunks(chunks: i64, each: i64) -> Vec<i64> {
    let (chunk, mut random) = (1i64 << 25, Random::new(2));
    let apart = (chunk / each) as u64;
    let offsets = (0..chunks).flat_map(|c| (0..each).map(move |k| (c, k)));
    offsets.map(|(c, k)| c * chunk + k * apart as i64 + random.below(apart) as i64).collect()
}
