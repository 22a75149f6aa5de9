//! The rows of docs/EXCEPTIONS.md: which of them an answer on memory that the full check refuses falls under, by what is wrong with the part
//! that the call looks at. Nothing wrong there: the answer is document 01's for that part, and is held against it.
use crate::answer::{DONE, NONE, refused, value};
use crate::bad::{Bad, Entry, Looked};
use crate::call::{Call, Record, Said, listed};
use crate::memory::Memory;
use crate::other;
use crate::plain::Plain;
use crate::second::Word;

#[derive(Clone, Copy, PartialEq, Debug)]
pub enum Row {
    Order,
    EmptyEntry,
    NoLength,
    Shared,
    Owner,
    Words,
    Falling,
    Far,
    NamedFree,
    FreeRow,
    FreePage,
    PassedOver,
    Prefix,
    Total,
    Blocks,
    WrittenOver,
    Negative,
    Sizes,
    Elsewhere,
}

pub const NAMES: [&str; 19] = [
    "order", "empty entry", "no length", "shared", "owner", "words", "falling", "far", "named free", "free row", "free page", "passed over", "prefix",
    "total", "blocks", "written over", "negative", "sizes", "elsewhere",
];

impl Row {
    pub fn name(self) -> &'static str {
        NAMES[self as usize]
    }

    /// Document 01's answer and no other.
    fn exact(self) -> bool {
        matches!(self, Row::Negative | Row::Sizes | Row::Elsewhere)
    }
}

impl Bad {
    /// The row that this answer falls under, or what is wrong with it.
    pub fn row_of(&self, x: &Memory, call: Call, said: &Said) -> Result<Row, String> {
        let name = match call {
            Call::Get(id) | Call::Set(id) | Call::SetIfNew(id) | Call::SetPrepared(id) | Call::Rank(id) | Call::RankIfSet(id) if id >= 0 => {
                self.of_a_chunk(x, call, id as u64)
            }
            Call::Len | Call::IsEmpty | Call::HasAny | Call::Chunks => self.of_counts(call),
            Call::Any(..) | Call::Iter(_) => self.looked(x, call).map_or(Row::Negative, |looked| self.of_looked(&looked, call)),
            Call::TotalCount if self.breaks(&[15]) => Row::Total,
            Call::PreAllocate(max) if max >= 0 => self.of_rows_and(Row::FreePage, self.breaks(&[12])),
            Call::IntoRanked => self.of_rows_and(Row::WrittenOver, self.breaks(&[14, 15, 16])),
            Call::IntoOpen if self.breaks(&[14, 15, 16]) => Row::WrittenOver,
            Call::PreAllocate(_) | Call::Get(_) | Call::Set(_) | Call::SetIfNew(_) | Call::SetPrepared(_) | Call::Rank(_) | Call::RankIfSet(_) => Row::Negative,
            Call::ChunkOf(id) if id < 0 => Row::Negative,
            _ => self.beside(),
        };
        let wanted = if name.exact() { self.exact(x, call) } else { None };
        if wanted.as_ref().is_none_or(|w| w == said) { Ok(name) } else { Err(format!("{said:?} and not {wanted:?}, nothing wrong where it looks ({name:?})")) }
    }

    /// The answer of a call that walks the table first: 3 where that finds something wrong, else that of the set that the table speaks of.
    pub fn walking(&self, call: Call, lent: [usize; 4]) -> Option<Said> {
        let turn = |set: &Plain, from: bool, no: u64| if set.ranked == from { DONE } else { refused(no) }.into();
        let of = |set: &Plain| match call {
            Call::IntoRanked => turn(set, false, 4),
            Call::IntoOpen => turn(set, true, 5),
            _ => set.clone().call(call, lent),
        };
        matches!(call, Call::PreAllocate(_) | Call::IntoRanked | Call::IntoOpen).then(|| self.walked.as_ref().map_or(call.refused(3), of))
    }

    /// Planning walks first too. With nothing wrong where it looks, its boundaries are those of that set.
    pub fn plan_fits(&self, x: &Memory, slots: u64, room: usize, told: Result<Record, u64>, bounds: &[i64]) -> bool {
        match &self.walked {
            None => told == Err(3),
            Some(set) if self.row_of_plan().exact() => set.plan(slots, room) == told.map(|r| (r, bounds.to_vec())),
            Some(_) => told != Err(3) && other::plan_fits(x, slots, room, told),
        }
    }

    /// Planning's row.
    pub fn row_of_plan(&self) -> Row {
        match self.of_rows_and(Row::Prefix, self.breaks(&[14])) {
            row if !row.exact() => row,
            _ if self.breaks(&[15]) => Row::Total,
            _ if self.breaks(&[16]) => Row::Blocks,
            row => row,
        }
    }

    fn beside(&self) -> Row {
        if self.breaks(&[1, 2]) { Row::Sizes } else { Row::Elsewhere }
    }

    fn of_rows_and(&self, other: Row, is: bool) -> Row {
        match () {
            _ if self.any(|e| e.falling) => Row::Falling,
            _ if self.any(|e| e.far) => Row::Far,
            _ if is => other,
            _ => self.beside(),
        }
    }

    fn of_counts(&self, call: Call) -> Row {
        let members = matches!(call, Call::Len | Call::IsEmpty);
        let ids = |e: &Entry| e.chunk < self.direct as u64 || e.chunk >= 1 << (63 - self.s);
        match () {
            _ if !self.rising || self.entries[self.direct..].iter().any(ids) => Row::Order,
            _ if self.entries[self.direct..].iter().any(|e| matches!(e.word, Word::Absent)) => Row::EmptyEntry,
            _ if self.any(|e| matches!(e.word, Word::Row(_, 0))) => Row::NoLength,
            _ if self.any(|e| e.shared) => Row::Shared,
            _ if !members && self.breaks(&[9]) => Row::Words,
            _ if members && self.any(|e| e.falling) => Row::Falling,
            _ if members && self.any(|e| e.far) => Row::Far,
            _ => self.beside(),
        }
    }

    fn of_looked(&self, looked: &Looked, call: Call) -> Row {
        match () {
            _ if !looked.rising => Row::Order,
            _ if looked.any(|e| e.chunk >= self.direct as u64 && matches!(e.word, Word::Absent)) => Row::EmptyEntry,
            _ if looked.any(|e| matches!(e.word, Word::Row(_, 0))) => Row::NoLength,
            _ if looked.any(|e| e.shared) => Row::Shared,
            _ if looked.any(|e| !e.owner) => Row::Owner,
            _ if looked.any(|e| e.falling) => Row::Falling,
            _ if looked.any(|e| e.far) && matches!(call, Call::Iter(_)) => Row::Far,
            _ => self.beside(),
        }
    }

    /// What a range test or iteration says: 3, or the ids of the parts that it looks at. None where it hangs on a search, or an offset is listed as another.
    pub fn running(&self, x: &Memory, call: Call) -> Option<Said> {
        let iterates = matches!(call, Call::Iter(_));
        if !iterates && !matches!(call, Call::Any(..)) {
            return None;
        }
        if !self.entries_in {
            return Some(call.refused(3));
        }
        let Some(looked) = self.looked(x, call) else { return Some(value(0).into()) };
        match call {
            _ if !looked.rising || looked.any(|e| e.falling || iterates && e.far) => None,
            _ if looked.any(|e| e.outside) || iterates && looked.past && looked.ids.len() < 64 => Some(call.refused(3)),
            Call::Iter(start) => Some(listed(&looked.ids, start)),
            _ => Some(value((!looked.ids.is_empty()).into()).into()),
        }
    }

    fn of_a_chunk(&self, x: &Memory, call: Call, id: u64) -> Row {
        let (c, o) = (id >> self.s, id % (1 << self.s));
        let (at, entry) = self.place(c);
        let ranks = matches!(call, Call::Rank(_) | Call::RankIfSet(_));
        let writes = matches!(call, Call::Set(_) | Call::SetIfNew(_));
        let w = entry.map_or(Word::Absent, |e| e.word);
        let (has, _) = self.slot(x, w, o);
        let begins = writes && matches!(w, Word::Absent);
        let turns = writes && !has && matches!(w, Word::Row(_, n) if n == self.z.m);
        let (prefix, before) = self.entries.get(at).map_or((self.total, self.members), |e| (e.prefix, e.before));
        let is = |what: fn(&Entry) -> bool| entry.is_some_and(what);
        match () {
            _ if c >= self.direct as u64 && !self.rising => Row::Order,
            _ if c >= self.direct as u64 && is(|e| matches!(e.word, Word::Absent)) => Row::EmptyEntry,
            _ if is(|e| matches!(e.word, Word::Row(_, 0))) => Row::NoLength,
            _ if is(|e| e.shared) => Row::Shared,
            _ if is(|e| !e.owner) => Row::Owner,
            _ if is(|e| e.falling) => Row::Falling,
            _ if turns && is(|e| e.far) => Row::Far,
            _ if begins && self.row.named || turns && self.page.named => Row::NamedFree,
            _ if begins && self.row.filled => Row::FreeRow,
            _ if turns && self.page.filled => Row::FreePage,
            _ if begins && self.row.passed || turns && self.page.passed => Row::PassedOver,
            _ if ranks && prefix != before => Row::Prefix,
            _ if ranks && self.blocks_wrong(x, w, o) => Row::Blocks,
            _ => self.beside(),
        }
    }

    /// Document 01's answer by the part that the call looks at. Counts and chunk ids are held in other.rs, range tests and
    /// iteration in `running`, for every row.
    fn exact(&self, x: &Memory, call: Call) -> Option<Said> {
        let at = |id: i64| {
            let (at, entry) = self.place(id as u64 >> self.s);
            let (has, below) = self.slot(x, entry.map_or(Word::Absent, |e| e.word), id as u64 % (1 << self.s));
            (id >= 0 && has, if id < 0 { 0 } else { self.entries.get(at).map_or(self.members, |e| e.before) + below })
        };
        let answer = match call {
            Call::Get(id) => value(at(id).0.into()),
            Call::Set(_) | Call::PreAllocate(_) | Call::IntoRanked | Call::IntoOpen => DONE,
            Call::SetIfNew(id) => value((id >= 0 && !at(id).0).into()),
            Call::SetPrepared(id) => value((!at(id).0).into()),
            Call::Rank(id) => value(at(id).1),
            Call::RankIfSet(id) => if at(id).0 { value(at(id).1) } else { NONE },
            _ => return None,
        };
        Some(answer.into())
    }
}
