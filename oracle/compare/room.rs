//! Which of the refusals 6, 7, 8 and 10 document 01 gives, from its words alone: kinds by chunk id, counted on the state after the call.
use crate::call::Sizes;
use crate::tally::Tally;
use crate::unions::Kind;
use std::collections::{BTreeMap, BTreeSet};

#[derive(Default)]
pub struct Chunk {
    pub dense: bool,
    /// Of a sparse chunk: its row, the lowest that was free.
    row: u64,
    pub offsets: BTreeSet<u64>,
}

pub struct Room {
    sizes: Sizes,
    chunks: BTreeMap<u64, Chunk>,
    /// Rows that a promotion freed and that no chunk has taken since.
    freed: BTreeSet<u64>,
}

/// Chunks with an overflow entry, sparse ones, dense ones.
#[derive(Default)]
struct Needs {
    over: u64,
    sparse: u64,
    dense: u64,
}

impl Room {
    pub fn new(sizes: Sizes) -> Room {
        Room { sizes, chunks: BTreeMap::new(), freed: BTreeSet::new() }
    }

    fn split(&self, id: i64) -> Option<(u64, u64)> {
        (id >= 0).then(|| (id as u64 >> self.sizes.s, id as u64 & ((1 << self.sizes.s) - 1)))
    }

    /// What the chunks need that the call leaves alone.
    fn others(&self, left_alone: impl Fn(u64) -> bool) -> Needs {
        let mut n = Needs::default();
        for (&c, chunk) in self.chunks.iter().filter(|(c, _)| left_alone(**c)) {
            n.over += u64::from(c >= self.sizes.d);
            n.dense += u64::from(chunk.dense);
            n.sparse += u64::from(!chunk.dense);
        }
        n
    }

    fn verdict(&self, n: Needs) -> Result<(), u64> {
        match () {
            _ if n.over > self.sizes.v => Err(6),
            _ if n.sparse > self.sizes.r => Err(7),
            _ if n.dense > self.sizes.p => Err(8),
            _ => Ok(()),
        }
    }

    /// The chunk, which is sparse; a new one takes the lowest free row.
    fn sparse_chunk(&mut self, c: u64, tally: &mut Tally) -> &mut Chunk {
        let taken: BTreeSet<u64> = self.chunks.values().filter(|k| !k.dense).map(|k| k.row).collect();
        self.chunks.entry(c).or_insert_with(|| {
            let row = (0..).find(|r| !taken.contains(r)).expect("a free row");
            tally.rows_again += u64::from(self.freed.remove(&row));
            Chunk { row, ..Chunk::default() }
        })
    }

    /// The chunk, dense; a sparse one leaves its row.
    fn dense_chunk(&mut self, c: u64, tally: &mut Tally) -> &mut Chunk {
        if let Some(k) = self.chunks.get(&c).filter(|k| !k.dense) {
            self.freed.insert(k.row);
            tally.promotions[usize::from(c >= self.sizes.d)] += 1;
        }
        let k = self.chunks.entry(c).or_default();
        k.dense = true;
        k
    }

    pub fn in_dense_overflow(&self, id: i64) -> bool {
        self.split(id).is_some_and(|(c, _)| c >= self.sizes.d && self.chunks.get(&c).is_some_and(|k| k.dense))
    }

    /// Whether an empty dense chunk lies between those of two ids.
    pub fn empty_between(&self, first: i64, last: i64) -> bool {
        let chunk = |id| self.split(id).map_or(0, |(c, _)| c);
        self.chunks.range(chunk(first)..=chunk(last)).any(|(_, k)| k.dense && k.offsets.is_empty())
    }

    /// Takes the id in, or says the refusal.
    pub fn insert(&mut self, id: i64, tally: &mut Tally) -> Result<(), u64> {
        let Some((c, o)) = self.split(id) else { return Ok(()) };
        let (dense, members) = self.chunks.get(&c).map_or((false, 0), |k| (k.dense, k.offsets.len() as u64));
        if self.chunks.get(&c).is_some_and(|k| k.offsets.contains(&o)) {
            return Ok(());
        }
        let dense = dense || members + 1 > self.sizes.m;
        let mut n = self.others(|other| other != c);
        n.over += u64::from(c >= self.sizes.d);
        n.dense += u64::from(dense);
        n.sparse += u64::from(!dense);
        self.verdict(n)?;
        let chunk = if dense { self.dense_chunk(c, tally) } else { self.sparse_chunk(c, tally) };
        chunk.offsets.insert(o);
        Ok(())
    }

    /// Takes the id into a dense chunk, or says 9.
    pub fn prepared(&mut self, id: i64) -> Result<bool, u64> {
        let (c, o) = self.split(id).ok_or(9u64)?;
        match self.chunks.get_mut(&c) {
            Some(k) if k.dense => Ok(k.offsets.insert(o)),
            _ => Err(9),
        }
    }

    /// Makes every chunk from 0 to the maximum's dense, or says the refusal, by arithmetic alone.
    pub fn prepare(&mut self, max: i64, tally: &mut Tally) -> Result<(), u64> {
        let Some((last, _)) = self.split(max) else { return Ok(()) };
        let mut n = self.others(|other| other > last);
        n.over += (last + 1).saturating_sub(self.sizes.d);
        n.dense += last + 1;
        self.verdict(n)?;
        (0..=last).for_each(|c| _ = self.dense_chunk(c, tally));
        Ok(())
    }

    /// The same sizes, and nothing else.
    pub fn emptied(&self) -> Room {
        Room::new(self.sizes)
    }

    /// Whether a chunk of another set is dense once it is taken in.
    fn joins_dense(&self, c: u64, there: &Chunk) -> bool {
        let together = |here: &Chunk| here.dense || there.dense || here.offsets.union(&there.offsets).count() as u64 > self.sizes.m;
        self.chunks.get(&c).map_or(there.dense, together)
    }

    /// Takes another set's chunks in, or says the refusal: first those that are dense then, in rising order, then the sparse ones.
    pub fn union(&mut self, from: &Room, tally: &mut Tally) -> Result<(), u64> {
        if (self.sizes.s, self.sizes.m) != (from.sizes.s, from.sizes.m) {
            return Err(10);
        }
        let (dense, sparse): (Vec<_>, Vec<_>) = from.chunks.iter().partition(|(c, there)| self.joins_dense(**c, there));
        let mut n = self.others(|c| !from.chunks.contains_key(&c));
        n.over += from.chunks.keys().filter(|&&c| c >= self.sizes.d).count() as u64;
        n.dense += dense.len() as u64;
        n.sparse += sparse.len() as u64;
        self.verdict(n)?;
        self.tell(from, &sparse, tally);
        dense.into_iter().for_each(|(&c, there)| self.dense_chunk(c, tally).offsets.extend(&there.offsets));
        sparse.into_iter().for_each(|(&c, there)| self.sparse_chunk(c, tally).offsets.extend(&there.offsets));
        Ok(())
    }

    /// What comes up in a union that is accepted, and some chunks of which are sparse then.
    fn tell(&self, from: &Room, sparse: &[(&u64, &Chunk)], tally: &mut Tally) {
        let u = &mut tally.unions;
        for (c, there) in &from.chunks {
            u.chunk(self.sizes.m, self.chunks.get(c), there);
            u.count(Kind::DirectHere, (from.sizes.d..self.sizes.d).contains(c));
            u.count(Kind::DirectThere, (self.sizes.d..from.sizes.d).contains(c));
        }
        let new = sparse.iter().filter(|(c, _)| !self.chunks.contains_key(c)).count() as u64;
        u.count(Kind::NeedsFreed, self.others(|_| true).sparse + new > self.sizes.r);
    }
}
