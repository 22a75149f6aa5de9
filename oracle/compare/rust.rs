//! One set as the Rust has it, with document 01's refusals where the Rust has none: the answer that each call is to give.
use crate::call::{Call, Ids, Ranges, Record, Said, Sizes};
use crate::idset::{IdSet, RankedIdSet};
use crate::locations;
use crate::marks::Marked;
use crate::memory::Needs;
use crate::room::Room;
use crate::tally::Tally;
use crate::unions::Kind;
use std::mem;

pub const BOUNDARIES: usize = 256;

pub struct Side {
    /// How long the lent slices are.
    lent: [usize; 4],
    room: Option<Room>,
    set: IdSet,
    ranked: Option<RankedIdSet>,
    bounds: Vec<i64>,
    /// The last plan and its partitions.
    planned: Option<(Record, Vec<Partition>)>,
}

/// Low and high end, first rank and count.
type Partition = (i64, Option<i64>, u64, u64);

/// The Rust's set has no copy; a union into an empty one copies each chunk with its kind.
fn copied(set: &IdSet) -> IdSet {
    let mut copy = IdSet::new();
    copy.merge_from(set);
    copy
}

fn told(r: Result<bool, u64>) -> Said {
    r.map_or_else(Said::Refused, Said::Truth)
}

fn done(r: Result<(), u64>) -> Said {
    r.map_or_else(Said::Refused, |()| Said::Ok)
}

impl Side {
    pub fn new(lent: [usize; 4]) -> Side {
        Side { lent, room: None, set: IdSet::new(), ranked: None, bounds: vec![0; BOUNDARIES], planned: None }
    }

    pub fn is_ranked(&self) -> bool {
        self.ranked.is_some()
    }

    pub fn last_plan(&self) -> Option<Record> {
        self.planned.as_ref().map(|p| p.0)
    }

    /// The answer, and this side changed as the call changes it; a union has the other side for its source.
    pub fn answer(&mut self, call: &Call, other: &mut Side, tally: &mut Tally) -> Said {
        match *call {
            Call::SetUp(z) => self.set_up(z),
            Call::Check => Said::Yes(self.room.is_some()),
            Call::Part { record, room, k } => self.part(record, room, k, tally),
            Call::Meet { record, room, k, ranges } => self.meet(record, room, k, &ranges, tally),
            Call::Mark(ranges) => self.mark(&ranges, tally),
            Call::GetAll(ids) | Call::RankAll(ids) | Call::RankIfAll(ids) | Call::InsertAll(ids) => self.many(call, &ids, tally),
            Call::Slots(b) => Said::Number(locations::slots_for_budget(b)),
            Call::Bounded(claim, length, per) => Said::Signed(IdSet::file_bounded_max_id(claim, length, per)),
            Call::From | Call::Merge => self.union(other, *call == Call::Merge, tally),
            _ if self.room.is_none() => Said::Refused(3),
            Call::Get(id) => Said::Truth(self.get(id)),
            Call::Any(min, max) => Said::Truth(self.any(min, max, tally)),
            Call::Iter(start) => self.listed(start, tally),
            Call::Len => Said::Number(self.set.len()),
            Call::Chunks => Said::Number(self.set.allocated_chunk_count() as u64),
            Call::Empty => Said::Truth(self.set.is_empty()),
            Call::Has => Said::Truth(self.set.has_any()),
            Call::Chunk(id) => IdSet::chunk_of(id).map_or(Said::Nothing, Said::Number),
            Call::Set(_) | Call::New(_) | Call::Put(_) | Call::Prepare(_) | Call::RankUp => self.open_call(call, tally),
            Call::Open | Call::Rank(_) | Call::RankIf(_) | Call::Total | Call::Plan { .. } => self.ranked_call(call, tally),
        }
    }

    fn set_up(&mut self, z: Sizes) -> Said {
        let allowed = (9..=25).contains(&z.s) && (1..=1024).contains(&z.m) && z.d <= 262_144 && z.v <= 65_536 && z.r <= 65_536 && z.p <= 65_536;
        if !allowed {
            return Said::Refused(1);
        }
        if z.needs().iter().zip(self.lent).any(|(need, lent)| *need > lent) {
            return Said::Refused(2);
        }
        (self.room, self.set, self.ranked) = (Some(Room::new(z)), IdSet::new(), None);
        Said::Ok
    }

    fn get(&self, id: i64) -> bool {
        let open = self.set.get(id);
        assert!(self.ranked.as_ref().is_none_or(|r| r.get(id) == open), "the Rust's two forms differ");
        open
    }

    fn any(&self, min: i64, max: i64, tally: &mut Tally) -> bool {
        let hit = self.set.any_in_range(min, max);
        tally.ranges[usize::from(hit)] += 1;
        tally.inverted_ranges += u64::from(min > max);
        hit
    }

    /// The Rust's range test, one record after the other.
    fn mark(&self, ranges: &Ranges, tally: &mut Tally) -> Said {
        let any = |&(low, high): &(i64, i64)| self.set.any_in_range(low, high);
        let said: Marked = if self.room.is_some() { Ok(ranges.ends().iter().map(any).collect()) } else { Err(3) };
        tally.marks.by_range(ranges, self.is_ranked(), &said);
        said.map_or_else(Said::Refused, Said::Marks)
    }

    /// The Rust's `range_meets`, one record after the other.
    fn meet(&self, p: Record, room: u64, k: u64, ranges: &Ranges, tally: &mut Tally) -> Said {
        let meets = |interval| ranges.ends().iter().map(|&(low, high)| locations::range_meets(low, high, interval)).collect();
        let said: Marked = self.ids(p, room, k).map(meets);
        tally.marks.by_partition(ranges, &said);
        said.map_or_else(Said::Refused, Said::Marks)
    }

    /// The single calls, one id after the other.
    fn many(&mut self, call: &Call, ids: &Ids, tally: &mut Tally) -> Said {
        let said = match (call, &self.ranked) {
            (Call::InsertAll(_), _) => self.insert_all(ids, tally),
            _ if self.room.is_none() => Said::Refused(3),
            (Call::GetAll(_), _) => Said::Marks(ids.ids().iter().map(|&id| self.get(id)).collect()),
            (_, None) => Said::Refused(5),
            (Call::RankAll(_), Some(ranked)) => Said::Ranks(ids.ids().iter().map(|&id| Some(ranked.rank(id))).collect()),
            (_, Some(ranked)) => Said::Ranks(ids.ids().iter().map(|&id| ranked.rank_if_set(id)).collect()),
        };
        tally.many.said(ids, &said);
        said
    }

    fn insert_all(&mut self, ids: &Ids, tally: &mut Tally) -> Said {
        let (mut taken, mut fresh) = (0, 0);
        for &id in ids.ids() {
            match if self.room.is_some() { self.open_call(&Call::New(id), tally) } else { Said::Refused(3) } {
                Said::Truth(new) => (taken, fresh) = (taken + 1, fresh + u64::from(new)),
                Said::Refused(refusal) => return Said::Inserted { taken, fresh, refusal },
                other => unreachable!("an insert is told {other}"),
            }
        }
        Said::Inserted { taken, fresh, refusal: 0 }
    }

    /// The least member not below an id.
    pub fn member_from(&self, id: i64) -> Option<i64> {
        self.set.iter_from(id).next()
    }

    /// A boundary of the last plan.
    pub fn boundary(&self, n: usize) -> Option<i64> {
        let count = self.last_plan()?.partitions as usize - 1;
        (count > 0).then(|| self.bounds[n % count])
    }

    /// The first 64 of the Rust's iterator, and one more for the mark.
    fn listed(&self, start: i64, tally: &mut Tally) -> Said {
        let mut ids: Vec<i64> = match &self.ranked {
            Some(ranked) => ranked.iter_from(start).take(66).collect(),
            None => self.set.iter_from(start).take(66).collect(),
        };
        if let (left @ 63..=65, Some(room)) = (ids.len(), &self.room) {
            tally.left[left - 63] += 1;
            tally.over_empty += u64::from(room.empty_between(ids[0], ids[left - 1]));
        }
        let end = ids.len() <= 64;
        ids.truncate(64);
        let next = if end { start } else { ids[63] + 1 };
        Said::Listed { ids, end, next }
    }

    /// The n-th member from the end, where it is there and there are few.
    pub fn from_end(&self, n: usize) -> Option<i64> {
        let total = self.set.len() as usize;
        (n..5000).contains(&total).then(|| self.set.iter().nth(total - n)).flatten()
    }

    fn open_call(&mut self, call: &Call, tally: &mut Tally) -> Said {
        let (Some(room), None) = (&mut self.room, &self.ranked) else { return Said::Refused(4) };
        match *call {
            Call::New(id) => told(room.insert(id, tally).map(|()| self.set.set_if_new(id))),
            Call::Set(id) => done(room.insert(id, tally).map(|()| self.set.set(id))),
            Call::Put(id) => {
                let wanted = room.prepared(id);
                told(wanted.and_then(|_| self.put(id)).or_else(|c| self.set.set_atomic_if_new_checked(id).ok_or(c)))
            }
            Call::Prepare(max) => done(room.prepare(max, tally).map(|()| self.set.pre_allocate(max))),
            _ => {
                self.ranked = Some(copied(&self.set).into_ranked());
                Said::Ok
            }
        }
    }

    fn union(&mut self, from: &mut Side, merges: bool, tally: &mut Tally) -> Said {
        let verdict = self.takes_in(from, merges, tally);
        match verdict {
            Err(c) => tally.unions.refused(c),
            Ok(()) if merges => self.set.merge(mem::replace(&mut from.set, IdSet::new())),
            Ok(()) => self.set.merge_from(&from.set),
        }
        done(verdict)
    }

    /// Which refusal is due, else the rooms after it: a set that was merged is empty and has its sizes.
    fn takes_in(&mut self, from: &mut Side, merges: bool, tally: &mut Tally) -> Result<(), u64> {
        let (Some(room), Some(other)) = (&mut self.room, &mut from.room) else { return Err(3) };
        if self.ranked.is_some() || merges && from.ranked.is_some() {
            tally.unions.count(Kind::SourceRanked, self.ranked.is_none());
            return Err(4);
        }
        room.union(other, tally)?;
        tally.unions.count(Kind::FromRanked, from.ranked.is_some());
        if merges {
            tally.unions.count(Kind::Emptied, from.set.has_any());
            *other = other.emptied();
        }
        Ok(())
    }

    /// All four atomic inserts: one of the two that answer, then the two that don't ask whether it is new.
    fn put(&self, id: i64) -> Result<bool, u64> {
        let new = if id % 2 == 0 { self.set.set_atomic_if_new(id) } else { self.set.set_atomic_if_new_checked(id).ok_or(9u64)? };
        self.set.set_atomic(id);
        assert!(self.set.set_atomic_checked(id), "the Rust's atomic inserts differ");
        Ok(new)
    }

    fn ranked_call(&mut self, call: &Call, tally: &mut Tally) -> Said {
        let (Some(room), Some(ranked)) = (&self.room, &self.ranked) else { return Said::Refused(5) };
        if let Call::Rank(id) | Call::RankIf(id) = *call {
            tally.overflow_ranks += u64::from(room.in_dense_overflow(id));
        }
        match *call {
            Call::Rank(id) => Said::Number(ranked.rank(id)),
            Call::RankIf(id) => ranked.rank_if_set(id).map_or(Said::Nothing, Said::Number),
            Call::Total => Said::Number(ranked.total_count()),
            Call::Plan { slots, room: boundaries } => {
                let total = ranked.total_count();
                let partitions = total.div_ceil(slots.max(1)).max(1);
                if partitions - 1 > boundaries {
                    return Said::Refused(11);
                }
                let (bounds, parts) = locations::planned(ranked, slots);
                let record = Record { total, slots: slots.max(1), partitions: parts.len() as u64 };
                tally.several_boundaries += u64::from(bounds.len() > 1);
                self.bounds[..bounds.len()].copy_from_slice(&bounds);
                self.planned = Some((record, parts));
                Said::Planned(record, bounds)
            }
            _ => {
                self.ranked = None;
                Said::Ok
            }
        }
    }

    /// A partition as the Rust has it, where the record is the last plan's.
    fn planned_part(&self, p: Record, k: u64) -> Option<&Partition> {
        self.planned.as_ref().filter(|q| q.0 == p).map(|q| &q.1[k as usize])
    }

    /// Low and high end: of the last plan what the Rust says; of any other record what document 01 says.
    fn ids(&self, p: Record, room: u64, k: u64) -> Result<(i64, Option<i64>), u64> {
        judged(p, k, p.partitions <= room + 1)?;
        let at = k as usize;
        let low = if at == 0 { i64::MIN } else { self.bounds[at - 1] };
        let ids = (low, (k + 1 < p.partitions).then(|| self.bounds[at]));
        assert!(self.planned_part(p, k).is_none_or(|q| ids == (q.0, q.1)), "the Rust's partition has other ends");
        Ok(ids)
    }

    /// First rank and count, for which boundaries are not given.
    fn ranks(&self, p: Record, k: u64) -> Result<(u64, u64), u64> {
        judged(p, k, true)?;
        let ranks = (k * p.slots, p.slots.min(p.total - k * p.slots));
        assert!(self.planned_part(p, k).is_none_or(|q| ranks == (q.2, q.3)), "the Rust's partition has other ranks");
        Ok(ranks)
    }

    fn part(&self, p: Record, room: u64, k: u64, tally: &mut Tally) -> Said {
        let (ids, ranks) = (self.ids(p, room, k), self.ranks(p, k));
        tally.ranks_alone += u64::from(ids.is_err() && ranks.is_ok());
        Said::Part { ids, ranks }
    }
}

/// Whether a record is one, its boundaries fit, and it has such a partition.
fn judged(p: Record, k: u64, fits: bool) -> Result<(), u64> {
    match () {
        _ if p.slots == 0 || p.partitions != p.total.div_ceil(p.slots).max(1) || !fits => Err(3),
        _ if k >= p.partitions => Err(12),
        _ => Ok(()),
    }
}
