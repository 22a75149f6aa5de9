//! Every call as a value: how it is made, and which answers document 01 lets it give on any memory at all.
use crate::answer::{Answer, DONE, NONE, refused, value};
use crate::memory::{Listing, Memory, Sizes};

#[derive(Clone, Copy, Debug)]
pub enum Call {
    SetUp(Sizes),
    Check,
    Set(i64),
    SetIfNew(i64),
    SetPrepared(i64),
    PreAllocate(i64),
    Get(i64),
    Any(i64, i64),
    ChunkOf(i64),
    Len,
    IsEmpty,
    HasAny,
    Chunks,
    Iter(i64),
    IntoRanked,
    IntoOpen,
    Rank(i64),
    RankIfSet(i64),
    TotalCount,
}

/// What a call says: an answer, or iteration's record.
#[derive(Clone, PartialEq, Debug)]
pub enum Said {
    Short(Answer),
    Listed(Box<Listing>),
}

impl From<Answer> for Said {
    fn from(a: Answer) -> Said {
        Said::Short(a)
    }
}

impl From<Listing> for Said {
    fn from(r: Listing) -> Said {
        Said::Listed(Box::new(r))
    }
}

impl Said {
    pub fn refusal(&self) -> Option<u64> {
        match self {
            Said::Short(a) => (a.kind == 2).then_some(a.value),
            Said::Listed(r) => (r.refusal != 0).then_some(r.refusal),
        }
    }
}

/// The record of the first 64 of these ids; it goes on where there are more.
pub fn listed(found: &[i64], start: i64) -> Said {
    let (mut ids, count, end) = ([0; 64], found.len().min(64), found.len() <= 64);
    ids[..count].copy_from_slice(&found[..count]);
    Listing { ids, count: count as u64, end, next: if end { start } else { ids[63] + 1 }, refusal: 0 }.into()
}

/// Whether a record's fields are in order: unused places 0, the next start the one given where the mark is set, else right after the last of 64 ids.
fn in_order(r: &Listing, start: i64) -> bool {
    let rest = r.ids.get(r.count as usize..);
    let next = if r.end { Some(start) } else { r.ids[63].checked_add(1).filter(|_| r.count == 64) };
    rest.is_some_and(|rest| rest.iter().all(|&id| id == 0)) && next == Some(r.next)
}

/// A plan as it comes back from planning, and as a caller may make one up.
#[derive(Clone, Copy, PartialEq, Debug)]
pub struct Record {
    pub total: u64,
    pub slots: u64,
    pub partitions: u64,
}

impl Record {
    pub fn new(total: u64, slots: u64) -> Record {
        let slots = slots.max(1);
        Record { total, slots, partitions: total.div_ceil(slots).max(1) }
    }
}

/// What an accepted call gives back.
enum Kind {
    Nothing,
    YesNo,
    Number,
    NumberOrNone,
    Record(i64),
}

use Call::*;

impl Call {
    /// The calls that take an id, and those that take none.
    pub const OF_AN_ID: [fn(i64) -> Call; 8] = [Set, SetIfNew, SetPrepared, PreAllocate, Get, ChunkOf, Rank, RankIfSet];
    pub const ALONE: [Call; 8] = [Check, Len, IsEmpty, HasAny, Chunks, TotalCount, IntoRanked, IntoOpen];

    pub fn make(self, x: &mut Memory) -> Said {
        let answer: Answer = match self {
            SetUp(z) => x.bp_set_up(z).into(),
            Check => value(x.bp_check().into()),
            Set(id) => x.bp_set(id).into(),
            SetIfNew(id) => x.bp_set_if_new(id).into(),
            SetPrepared(id) => x.bp_set_prepared(id).into(),
            PreAllocate(max) => x.bp_pre_allocate(max).into(),
            Get(id) => x.bp_get(id).into(),
            Any(min, max) => x.bp_any_in_range(min, max).into(),
            ChunkOf(id) => x.bp_chunk_of(id).into(),
            Len => x.bp_len().into(),
            IsEmpty => x.bp_is_empty().into(),
            HasAny => x.bp_has_any().into(),
            Chunks => x.bp_allocated_chunk_count().into(),
            Iter(start) => return x.bp_iter_from(start).into(),
            IntoRanked => x.bp_into_ranked().into(),
            IntoOpen => x.bp_into_open().into(),
            Rank(id) => x.bp_rank(id).into(),
            RankIfSet(id) => x.bp_rank_if_set(id).into(),
            TotalCount => x.bp_total_count().into(),
        };
        answer.into()
    }

    fn answers(self) -> (Kind, &'static [u64]) {
        match self {
            SetUp(_) => (Kind::Nothing, &[1, 2]),
            Check => (Kind::YesNo, &[]),
            Set(_) => (Kind::Nothing, &[3, 4, 6, 7, 8]),
            SetIfNew(_) => (Kind::YesNo, &[3, 4, 6, 7, 8]),
            SetPrepared(_) => (Kind::YesNo, &[3, 4, 9]),
            PreAllocate(_) => (Kind::Nothing, &[3, 4, 6, 8]),
            Get(_) | Any(..) | IsEmpty | HasAny => (Kind::YesNo, &[3]),
            ChunkOf(_) => (Kind::NumberOrNone, &[3]),
            Len | Chunks => (Kind::Number, &[3]),
            Iter(start) => (Kind::Record(start), &[3]),
            IntoRanked => (Kind::Nothing, &[3, 4]),
            IntoOpen => (Kind::Nothing, &[3, 5]),
            Rank(_) | TotalCount => (Kind::Number, &[3, 5]),
            RankIfSet(_) => (Kind::NumberOrNone, &[3, 5]),
        }
    }

    /// A refusal is a number alone: every other field is 0.
    pub fn refused(self, no: u64) -> Said {
        match self {
            Iter(_) => Listing { ids: [0; 64], count: 0, end: false, next: 0, refusal: no }.into(),
            _ => refused(no).into(),
        }
    }

    pub fn allows(self, said: &Said) -> bool {
        let (kind, refusals) = self.answers();
        if let Some(no) = said.refusal() {
            return refusals.contains(&no) && *said == self.refused(no);
        }
        match (said, kind) {
            (&Said::Short(a), Kind::Nothing) => a == DONE,
            (&Said::Short(a), Kind::YesNo) => a.kind == 1 && a.value <= 1,
            (&Said::Short(a), Kind::Number) => a.kind == 1,
            (&Said::Short(a), Kind::NumberOrNone) => a.kind == 1 || a == NONE,
            (Said::Listed(r), Kind::Record(start)) => in_order(r, start),
            _ => false,
        }
    }

    /// Whether the call may change memory.
    pub fn writes(self) -> bool {
        matches!(self, SetUp(_) | Set(_) | SetIfNew(_) | SetPrepared(_) | PreAllocate(_) | IntoRanked | IntoOpen)
    }
}
