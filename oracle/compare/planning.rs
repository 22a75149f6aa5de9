//! The library's entries for planning, on a plan record as a caller may make one up.
use crate::call::Record;
use crate::memory::Memory;
use brothpillow::sys::{self, Done, Interval, Planned, RankedSpan};

impl Memory {
    pub fn plan(&self, slots: u64, bounds: &mut [i64]) -> Planned {
        sys::plan(self.slices(), slots, bounds)
    }
}

fn record(p: Record) -> sys::Record {
    sys::Record { total: p.total, slots: p.slots, partitions: p.partitions }
}

pub fn ids(p: Record, bounds: &[i64], k: u64) -> Interval {
    sys::ids(record(p), bounds, k)
}

pub fn ranks(p: Record, k: u64) -> RankedSpan {
    sys::ranks(record(p), k)
}

pub fn in_partition(id: i64, low: i64, high: Option<i64>) -> bool {
    sys::in_partition(id, high.is_some(), low, high.unwrap_or(0))
}

pub fn range_meets(min: i64, max: i64, low: i64, high: Option<i64>) -> bool {
    sys::range_meets(min, max, high.is_some(), low, high.unwrap_or(0))
}

/// Marks of a range list by partition k: as many as the shortest of the three has.
pub fn mark_ends_by_partition(lows: &[i64], highs: &[i64], marks: &mut [u8], p: Record, bounds: &[i64], k: u64) -> Done {
    sys::mark_ends_by_partition(lows, highs, marks, record(p), bounds, k)
}
