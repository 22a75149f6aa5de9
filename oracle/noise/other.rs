//! What docs/EXCEPTIONS.md lets a call answer on memory that doesn't follow the layout, as far as it doesn't hang on the way a search goes.
use crate::answer::{Answer, value};
use crate::call::{Call, Record, Said};
use crate::memory::{Listing, Memory};
use crate::second::{Word, set_bits, word};

struct Loose<'a> {
    x: &'a Memory,
    table: &'a [u64],
    s: u64,
}

/// Whether the list has this answer. None of it is asked of set-up, which trusts nothing, or of the check.
pub fn fits(x: &Memory, call: Call, said: &Said) -> bool {
    let table = &x.table[..x.lent()[3]];
    match table.first() {
        _ if matches!(call, Call::SetUp(_) | Call::Check) => true,
        Some(&s) if (9..=25).contains(&s) => {
            let v = Loose { x, table, s };
            v.mode_fits(call, said) && (said.refusal().is_some() || v.said_fits(call, said).unwrap_or(false))
        }
        _ => *said == call.refused(3),
    }
}

/// Planning is by header word 8; its boundaries hang on the search.
pub fn plan_fits(x: &Memory, slots: u64, room: usize, told: Result<Record, u64>) -> bool {
    let head = |k| x.table[..x.lent()[3]].get(k).copied().unwrap_or(0);
    let record = Record::new(head(8), slots);
    let fits = record.partitions - 1 <= room as u64;
    match told {
        Ok(r) => head(6) == 1 && r == record && fits,
        Err(5) => head(6) == 0,
        Err(11) => head(6) == 1 && !fits,
        Err(no) => no == 3,
    }
}

impl Loose<'_> {
    /// A header word; one past the table's end is read as 0.
    fn head(&self, k: usize) -> u64 {
        self.table.get(k).copied().unwrap_or(0)
    }

    /// A call of the other mode is never accepted, and no mode above 1 by a call that asks for it.
    fn mode_fits(&self, call: Call, said: &Said) -> bool {
        let wanted = match call {
            Call::Set(_) | Call::SetIfNew(_) | Call::SetPrepared(_) | Call::PreAllocate(_) | Call::IntoRanked => 0,
            Call::Rank(_) | Call::RankIfSet(_) | Call::TotalCount | Call::IntoOpen => 1,
            _ => return true,
        };
        match self.head(6) {
            2.. => said.refusal() == Some(3),
            mode if mode == wanted => !matches!(said.refusal(), Some(4 | 5)),
            mode => said.refusal().is_some_and(|no| no == 3 || no == 5 - mode),
        }
    }

    /// None where the answer would need an element that isn't there.
    fn said_fits(&self, call: Call, said: &Said) -> Option<bool> {
        match said {
            &Said::Short(a) => self.answer_fits(call, a),
            Said::Listed(r) => self.listing_fits(r),
        }
    }

    /// Each id is one that an entry of its chunk lists, and where the record goes on, there is something to go on to.
    fn listing_fits(&self, r: &Listing) -> Option<bool> {
        let entries = self.entries()?;
        let lists = |id: i64| id >= 0 && entries.iter().any(|&(c, w)| c == id as u64 >> self.s && self.slot_lists(w, id as u64 % (1 << self.s)));
        Some(r.ids[..r.count as usize].iter().all(|&id| lists(id)) && (r.end || self.may_meet(r.next, i64::MAX)?))
    }

    fn answer_fits(&self, call: Call, a: Answer) -> Option<bool> {
        Some(match call {
            Call::Get(id) => a == value(0) || self.may_have(id)?,
            Call::Any(min, max) => a == value(0) || self.may_meet(min, max)?,
            Call::RankIfSet(id) => a.kind == 0 || self.may_have(id)?,
            Call::SetIfNew(id) | Call::SetPrepared(id) => a == value(1) || id < 0 || self.may_have(id)?,
            Call::ChunkOf(id) => if id < 0 { a.kind == 0 } else { a == value(id as u64 >> self.s) },
            Call::Len => a == value(self.members()?),
            Call::IsEmpty => a == value((self.members()? == 0).into()),
            Call::Chunks => a == value(self.chunks()?),
            Call::HasAny => a == value((self.chunks()? > 0).into()),
            Call::TotalCount => a == value(self.head(8)),
            _ => true,
        })
    }

    /// Chunk id and word of each entry that the header speaks of.
    fn entries(&self) -> Option<Vec<(u64, u64)>> {
        let (d, n) = (self.head(2), self.head(7));
        let places = d.checked_mul(2)?.checked_add(n.checked_mul(3)?)?;
        let entries = self.table.get(16..)?.get(..places as usize)?;
        let (direct, over) = entries.split_at(2 * d as usize);
        let direct = (0..).zip(direct.chunks(2)).map(|(c, e)| (c, e[0]));
        Some(direct.chain(over.chunks(3).map(|e| (e[0], e[1]))).collect())
    }

    fn row(&self, r: u64, length: u64) -> Option<&[u32]> {
        let from = r.checked_mul(self.head(1))?;
        self.x.rows[..self.x.lent()[1]].get(from as usize..(from + length) as usize)
    }

    fn page(&self, p: u64) -> Option<&[u64]> {
        let from = p.checked_mul(1 << (self.s - 6))?;
        self.x.pages[..self.x.lent()[0]].get(from as usize..(from + (1 << (self.s - 6))) as usize)
    }

    /// Whether some entry of the id's chunk has its offset. A direct chunk's entry has to be there, an overflow one's among those in use.
    fn may_have(&self, id: i64) -> Option<bool> {
        let (c, o) = (id as u64 >> self.s, id as u64 % (1 << self.s));
        let d = self.head(2);
        let words = if c < d { vec![*self.table.get(16 + 2 * c as usize)?] } else { self.overflow_words(c)? };
        Some(id >= 0 && words.into_iter().any(|w| self.slot_has(w, o)))
    }

    /// Whether some entry has an offset in the range, clipped to its chunk; where ids don't rise, a chunk below the range may be met.
    fn may_meet(&self, min: i64, max: i64) -> Option<bool> {
        let (low, high, last) = (min.max(0) as u64, max as u64, (1 << self.s) - 1);
        let clipped = |c: u64| (if c == low >> self.s { low & last } else { 0 })..=(if c == high >> self.s { high & last } else { last });
        let meets = |(c, w)| c <= high >> self.s && self.offsets(w).iter().any(|&o| clipped(c).contains(&o.into()));
        Some(min <= max && max >= 0 && self.entries()?.into_iter().any(meets))
    }

    fn overflow_words(&self, c: u64) -> Option<Vec<u64>> {
        let d = self.head(2) as usize;
        Some(self.entries()?[d..].iter().filter(|e| e.0 == c).map(|e| e.1).collect())
    }

    fn slot_has(&self, w: u64, o: u64) -> bool {
        match word(w) {
            Word::Absent => false,
            Word::Row(r, length) => self.row(r, length).is_some_and(|t| t.contains(&(o as u32))),
            Word::Page(p) => self.page(p).is_some_and(|t| t[o as usize / 64] >> (o % 64) & 1 == 1),
        }
    }

    /// An offset of 2^s or more is listed mod 2^s.
    fn slot_lists(&self, w: u64, o: u64) -> bool {
        match word(w) {
            Word::Row(r, length) => self.row(r, length).is_some_and(|t| t.iter().any(|&p| u64::from(p) % (1 << self.s) == o)),
            _ => self.slot_has(w, o),
        }
    }

    /// What the slot holds, as it stands.
    fn offsets(&self, w: u64) -> Vec<u32> {
        match word(w) {
            Word::Absent => vec![],
            Word::Row(r, length) => self.row(r, length).unwrap_or_default().to_vec(),
            Word::Page(p) => self.page(p).map_or(vec![], set_bits),
        }
    }

    fn members(&self) -> Option<u64> {
        self.entries()?.into_iter().try_fold(0, |sum, (_, w)| {
            Some(sum + match word(w) {
                Word::Absent => 0,
                Word::Row(r, length) => self.row(r, length)?.len() as u64,
                Word::Page(p) => self.page(p)?.iter().map(|w| u64::from(w.count_ones())).sum(),
            })
        })
    }

    fn chunks(&self) -> Option<u64> {
        Some(self.entries()?.into_iter().filter(|e| e.1 != 0).count() as u64)
    }
}
