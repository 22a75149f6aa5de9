//! A set and its ranked form on either side, as the afternoon uses them.
use crate::call::Record;
use crate::idset::{IdSet, RankedIdSet};
use crate::locations;
use crate::memory::{DONE, Memory};
use crate::planning::{ids, ranks};

/// Most boundaries of a plan.
const ROOM: usize = 256;

/// An interval of ids, and how many members it holds.
pub type Part = (i64, Option<i64>, u64);

pub trait Open {
    type Ranked: Ranked;
    fn insert(&mut self, id: i64) -> bool;
    /// The full check, where there is one.
    fn check(&mut self) -> Option<bool>;
    fn into_ranked(self) -> Self::Ranked;
}

pub trait Ranked {
    fn check(&mut self) -> Option<bool>;
    fn plan(&mut self, slots: u64) -> Vec<Part>;
    /// The ids of a partition.
    fn read(&mut self, part: Part, take: impl FnMut(i64));
    fn rank(&mut self, id: i64) -> u64;
}

impl Open for Memory {
    type Ranked = Memory;

    fn insert(&mut self, id: i64) -> bool {
        self.bp_set_if_new(id).yes
    }

    fn check(&mut self) -> Option<bool> {
        Some(self.bp_check())
    }

    fn into_ranked(mut self) -> Memory {
        assert_eq!(self.bp_into_ranked(), DONE);
        self
    }
}

impl Ranked for Memory {
    fn check(&mut self) -> Option<bool> {
        Some(self.bp_check())
    }

    fn plan(&mut self, slots: u64) -> Vec<Part> {
        let mut bounds = [0; ROOM];
        let made = Memory::plan(self, slots, &mut bounds);
        assert_eq!(made.refusal, 0, "a plan is refused");
        let plan = Record { total: made.total, slots: made.slots, partitions: made.partitions };
        let part = |k| {
            let (ids, ranks) = (ids(plan, &bounds, k), ranks(plan, k));
            (ids.low, ids.has_high.then_some(ids.high), ranks.count)
        };
        (0..plan.partitions).map(part).collect()
    }

    fn read(&mut self, (low, high, _): Part, mut take: impl FnMut(i64)) {
        let mut start = low;
        loop {
            let record = self.bp_iter_from(start);
            let ids = &record.ids[..record.count as usize];
            let inside = high.map_or(ids.len(), |high| ids.partition_point(|&id| id < high));
            ids[..inside].iter().for_each(|&id| take(id));
            if record.end || inside < ids.len() {
                return;
            }
            start = record.next;
        }
    }

    fn rank(&mut self, id: i64) -> u64 {
        self.bp_rank(id).value
    }
}

impl Open for IdSet {
    type Ranked = RankedIdSet;

    fn insert(&mut self, id: i64) -> bool {
        self.set_if_new(id)
    }

    fn check(&mut self) -> Option<bool> {
        None
    }

    fn into_ranked(self) -> RankedIdSet {
        IdSet::into_ranked(self)
    }
}

impl Ranked for RankedIdSet {
    fn check(&mut self) -> Option<bool> {
        None
    }

    fn plan(&mut self, slots: u64) -> Vec<Part> {
        locations::planned(self, slots).1.into_iter().map(|(low, high, _, count)| (low, high, count)).collect()
    }

    fn read(&mut self, (low, high, _): Part, take: impl FnMut(i64)) {
        self.iter_from(low).take_while(|&id| high.is_none_or(|high| id < high)).for_each(take);
    }

    fn rank(&mut self, id: i64) -> u64 {
        RankedIdSet::rank(self, id)
    }
}
