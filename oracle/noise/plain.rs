//! A set as document 01 speaks of it: chunks by id, their kind, slot and offsets, and the mode; each call's answer and what it leaves.
//! Slots are part of it, since document 01 says which is taken: so a set fixes memory, but for the elements past the sizes.
use crate::answer::{Answer, DONE, NONE, value};
use crate::call::{Call, Record, Said, listed};
use crate::memory::{Needs, Sizes};
use crate::second::sizes_allowed;
use std::collections::{BTreeMap, BTreeSet};

#[derive(Clone, PartialEq, Debug)]
pub struct Chunk {
    pub dense: bool,
    pub slot: u64,
    /// Ascending.
    pub offsets: Vec<u32>,
}

#[derive(Clone, PartialEq, Debug)]
pub struct Plain {
    pub sizes: Sizes,
    pub ranked: bool,
    pub chunks: BTreeMap<u64, Chunk>,
}

type Told<T> = Result<T, u64>;

fn yes_no(b: bool) -> Answer {
    value(b.into())
}

impl Plain {
    pub fn empty(sizes: Sizes) -> Plain {
        Plain { sizes, ranked: false, chunks: BTreeMap::new() }
    }

    /// The answer of a call on memory that stands for this set and has these lengths; the set becomes the one after the call.
    pub fn call(&mut self, call: Call, lent: [usize; 4]) -> Said {
        self.told(call, lent).unwrap_or_else(|no| call.refused(no))
    }

    fn told(&mut self, call: Call, lent: [usize; 4]) -> Told<Said> {
        let answer = match call {
            Call::SetUp(z) => {
                set_up(z, lent)?;
                *self = Plain::empty(z);
                DONE
            }
            Call::Check => yes_no(true),
            Call::Set(id) => self.insert(id).map(|_| DONE)?,
            Call::SetIfNew(id) => yes_no(self.insert(id)?),
            Call::SetPrepared(id) => yes_no(self.insert_prepared(id)?),
            Call::PreAllocate(max) => self.pre_allocate(max).map(|()| DONE)?,
            Call::Get(id) => yes_no(self.has(id)),
            Call::Any(min, max) => yes_no(self.members_from(min).next().is_some_and(|id| id <= max)),
            Call::ChunkOf(id) => self.split(id).map_or(NONE, |(c, _)| value(c)),
            Call::Len => value(self.len()),
            Call::IsEmpty => yes_no(self.len() == 0),
            Call::HasAny => yes_no(!self.chunks.is_empty()),
            Call::Chunks => value(self.chunks.len() as u64),
            Call::Iter(start) => return Ok(listed(&self.members_from(start).take(65).collect::<Vec<_>>(), start)),
            Call::IntoRanked => self.turn(false, 4)?,
            Call::IntoOpen => self.turn(true, 5)?,
            Call::Rank(id) => value(self.rank(id)?),
            Call::RankIfSet(id) => {
                let rank = self.rank(id)?;
                if self.has(id) { value(rank) } else { NONE }
            }
            Call::TotalCount => value(self.in_mode(true, 5).map(|()| self.len())?),
        };
        Ok(answer.into())
    }

    fn in_mode(&self, ranked: bool, no: u64) -> Told<()> {
        if self.ranked == ranked { Ok(()) } else { Err(no) }
    }

    fn turn(&mut self, from: bool, no: u64) -> Told<Answer> {
        self.in_mode(from, no)?;
        self.ranked = !from;
        Ok(DONE)
    }

    fn split(&self, id: i64) -> Option<(u64, u32)> {
        let s = self.sizes.s;
        (id >= 0).then(|| (id as u64 >> s, (id as u64 % (1 << s)) as u32))
    }

    fn has(&self, id: i64) -> bool {
        let at = self.split(id).and_then(|(c, o)| self.chunks.get(&c).map(|k| (k, o)));
        at.is_some_and(|(k, o)| k.offsets.binary_search(&o).is_ok())
    }

    fn len(&self) -> u64 {
        self.chunks.values().map(|k| k.offsets.len() as u64).sum()
    }

    /// Members not below a start, ascending.
    fn members_from(&self, start: i64) -> impl Iterator<Item = i64> {
        let s = self.sizes.s;
        let chunks = self.chunks.range(start.max(0) as u64 >> s..);
        let ids = chunks.flat_map(move |(&c, k)| k.offsets.iter().map(move |&o| (c << s | u64::from(o)) as i64));
        ids.filter(move |&id| id >= start)
    }

    fn rank(&self, id: i64) -> Told<u64> {
        self.in_mode(true, 5)?;
        let Some((c, o)) = self.split(id) else { return Ok(0) };
        let lower: usize = self.chunks.range(..c).map(|(_, k)| k.offsets.len()).sum();
        let within = self.chunks.get(&c).map_or(0, |k| k.offsets.partition_point(|&p| p < o));
        Ok((lower + within) as u64)
    }

    /// The member of this rank.
    fn nth(&self, rank: u64) -> i64 {
        let mut left = rank as usize;
        for (c, k) in &self.chunks {
            match k.offsets.get(left) {
                Some(&o) => return (c << self.sizes.s | u64::from(o)) as i64,
                None => left -= k.offsets.len(),
            }
        }
        panic!("no member of rank {rank}")
    }

    /// Boundary k is the smallest id of rank kS, one above the member before it.
    pub fn plan(&self, slots: u64, room: usize) -> Told<(Record, Vec<i64>)> {
        self.in_mode(true, 5)?;
        let record = Record::new(self.len(), slots);
        if record.partitions - 1 > room as u64 {
            return Err(11);
        }
        Ok((record, (1..record.partitions).map(|k| self.nth(k * record.slots - 1) + 1).collect()))
    }

    fn count(&self, which: impl Fn(u64, &Chunk) -> bool) -> u64 {
        self.chunks.iter().filter(|&(&c, k)| which(c, k)).count() as u64
    }

    /// The refusal of a state that needs this many overflow entries, rows and pages.
    fn room(&self, over: u64, sparse: u64, dense: u64) -> Told<()> {
        let z = self.sizes;
        let short = [(6, over > z.v), (7, sparse > z.r), (8, dense > z.p)];
        short.iter().find(|(_, is)| *is).map_or(Ok(()), |&(no, _)| Err(no))
    }

    fn lowest_free(&self, dense: bool) -> u64 {
        (0..).find(|&slot| self.count(|_, k| k.dense == dense && k.slot == slot) == 0).expect("slots are finite")
    }

    fn insert(&mut self, id: i64) -> Told<bool> {
        self.in_mode(false, 4)?;
        let Some((c, o)) = self.split(id) else { return Ok(false) };
        if self.has(id) {
            return Ok(false);
        }
        match self.chunks.get(&c) {
            None => self.start(c)?,
            Some(k) if !k.dense && k.offsets.len() as u64 == self.sizes.m => self.promote(c)?,
            Some(_) => (),
        }
        Ok(self.put(c, o))
    }

    fn start(&mut self, c: u64) -> Told<()> {
        let (over, sparse, dense) = (self.count(|c, _| c >= self.sizes.d), self.count(|_, k| !k.dense), self.count(|_, k| k.dense));
        self.room(over + u64::from(c >= self.sizes.d), sparse + 1, dense)?;
        let slot = self.lowest_free(false);
        self.chunks.insert(c, Chunk { dense: false, slot, offsets: vec![] });
        Ok(())
    }

    fn promote(&mut self, c: u64) -> Told<()> {
        self.room(0, 0, self.count(|_, k| k.dense) + 1)?;
        self.make_dense(c);
        Ok(())
    }

    /// The chunk in the lowest free page, unless it is dense already.
    fn make_dense(&mut self, c: u64) {
        let slot = self.lowest_free(true);
        let k = self.chunks.entry(c).or_insert(Chunk { dense: false, slot, offsets: vec![] });
        if !k.dense {
            (k.dense, k.slot) = (true, slot);
        }
    }

    fn put(&mut self, c: u64, o: u32) -> bool {
        let offsets = &mut self.chunks.get_mut(&c).expect("a chunk").offsets;
        let place = offsets.binary_search(&o);
        if let Err(at) = place {
            offsets.insert(at, o);
        }
        place.is_err()
    }

    fn insert_prepared(&mut self, id: i64) -> Told<bool> {
        self.in_mode(false, 4)?;
        let (c, o) = self.split(id).ok_or(9u64)?;
        match self.chunks.get(&c) {
            Some(k) if k.dense => Ok(self.put(c, o)),
            _ => Err(9),
        }
    }

    fn pre_allocate(&mut self, max: i64) -> Told<()> {
        self.in_mode(false, 4)?;
        let Some((last, _)) = self.split(max) else { return Ok(()) };
        let d = self.sizes.d;
        let over = (last + 1).saturating_sub(d) + self.count(|c, _| c > last && c >= d);
        let dense = last + 1 + self.count(|c, k| c > last && k.dense);
        self.room(over, self.count(|c, k| c > last && !k.dense), dense)?;
        (0..=last).for_each(|c| self.make_dense(c));
        Ok(())
    }
}

/// Union. What rows hold is taken as it stands, so that it says what comes of rows in no order too.
impl Plain {
    /// Takes the other set's chunks in: first those that are dense then, in rising order, then the sparse ones.
    pub fn union(&mut self, from: &Plain, merges: bool) -> Told<()> {
        self.in_mode(false, 4)?;
        if merges {
            from.in_mode(false, 4)?;
        }
        if (self.sizes.s, self.sizes.m) != (from.sizes.s, from.sizes.m) {
            return Err(10);
        }
        let mut after = self.clone();
        for dense in [true, false] {
            let joined = from.chunks.iter().map(|(&c, there)| (c, self.joined(c, there)));
            joined.filter(|(_, k)| k.dense == dense).for_each(|(c, k)| after.take(c, k));
        }
        self.room(after.count(|c, _| c >= self.sizes.d), after.count(|_, k| !k.dense), after.count(|_, k| k.dense))?;
        *self = after;
        Ok(())
    }

    /// A chunk of the union, but for its slot.
    fn joined(&self, c: u64, there: &Chunk) -> Chunk {
        let Some(here) = self.chunks.get(&c) else { return there.clone() };
        let both = merged(&here.offsets, &there.offsets);
        if !here.dense && !there.dense && both.len() as u64 <= self.sizes.m {
            return Chunk { offsets: both, ..*here };
        }
        let bits: BTreeSet<u32> = both.into_iter().map(|o| o % (1 << self.sizes.s)).collect();
        Chunk { dense: true, slot: 0, offsets: bits.into_iter().collect() }
    }

    /// The chunk in the slot that it has, or in the lowest free one.
    fn take(&mut self, c: u64, k: Chunk) {
        if k.dense {
            self.make_dense(c);
        } else if !self.chunks.contains_key(&c) {
            let slot = self.lowest_free(false);
            self.chunks.insert(c, Chunk { slot, ..k.clone() });
        }
        self.chunks.get_mut(&c).expect("a chunk").offsets = k.offsets;
    }
}

/// The lesser head goes on, of two equal ones one; once a list is used up, the rest of the other as it stands.
fn merged(mut a: &[u32], mut b: &[u32]) -> Vec<u32> {
    let mut both = vec![];
    while let (Some(x), Some(y)) = (a.first(), b.first()) {
        both.push(*x.min(y));
        (a, b) = (&a[usize::from(x <= y)..], &b[usize::from(y <= x)..]);
    }
    [&both, a, b].concat()
}

/// Which refusal set-up gives, on any memory of these lengths.
pub fn set_up(z: Sizes, lent: [usize; 4]) -> Told<()> {
    match () {
        _ if !sizes_allowed(z) => Err(1),
        _ if z.needs().iter().zip(lent).any(|(&n, has)| has < n) => Err(2),
        _ => Ok(()),
    }
}
