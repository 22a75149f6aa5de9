//! The Rust's `Plan`, with stand-ins for what its file leans on and is not at hand: `Coord` of scan.rs, `Error`, `coord_fmt`.
pub mod scan {
    pub enum Coord {
        Valid { lat: i32, lon: i32 },
        Invalid { lat: i64, lon: i64 },
    }
}
pub mod store;

use crate::idset::RankedIdSet;
use store::Plan;

pub fn slots_for_budget(bytes: u64) -> u64 {
    store::slots_for_budget(bytes)
}

/// The plan's boundaries, and its partitions: interval, first rank, count.
pub fn planned(keys: &RankedIdSet, slots: u64) -> (Vec<i64>, Vec<(i64, Option<i64>, u64, u64)>) {
    let plan = Plan::new(keys, slots);
    let parts = (0..plan.partitions()).map(|k| {
        let ((low, high), (first, count)) = (plan.ids(k), plan.ranks(k));
        (low, high, first, count)
    });
    let parts: Vec<_> = parts.collect();
    (parts.iter().skip(1).map(|p| p.0).collect(), parts)
}

pub fn in_partition(id: i64, interval: (i64, Option<i64>)) -> bool {
    store::in_partition(id, interval)
}

pub fn range_meets(min: i64, max: i64, interval: (i64, Option<i64>)) -> bool {
    store::range_meets(min, max, interval)
}
