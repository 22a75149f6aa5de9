//! Calls and what they answer, as the program `replay` reads and writes them: one line each.
pub use crate::memory::Sizes;
use std::fmt;

/// What planning hands out, and what asking for a partition gives back.
#[derive(Clone, Copy, PartialEq, Debug)]
pub struct Record {
    pub total: u64,
    pub slots: u64,
    pub partitions: u64,
}

/// One to eight ranges, low and high each. Where the library is linked, lows, highs and marks are lent with so many more elements, one of them with none.
#[derive(Clone, Copy, PartialEq, Debug)]
pub struct Ranges {
    all: [(i64, i64); 8],
    count: usize,
    pub more: [usize; 3],
}

impl Ranges {
    pub fn new(ends: &[(i64, i64)], more: [usize; 3]) -> Ranges {
        let mut all = [(0, 0); 8];
        all[..ends.len()].copy_from_slice(ends);
        Ranges { all, count: ends.len(), more }
    }

    pub fn ends(&self) -> &[(i64, i64)] {
        &self.all[..self.count]
    }
}

impl fmt::Display for Ranges {
    fn fmt(&self, f: &mut fmt::Formatter) -> fmt::Result {
        self.ends().iter().try_for_each(|(low, high)| write!(f, " {low} {high}"))
    }
}

/// One to eight ids. Where the library is linked, ids and answers are lent with so many more elements, one of them with none.
#[derive(Clone, Copy, PartialEq, Debug)]
pub struct Ids {
    all: [i64; 8],
    count: usize,
    pub more: [usize; 2],
}

impl Ids {
    pub fn new(ids: &[i64], more: [usize; 2]) -> Ids {
        let mut all = [0; 8];
        all[..ids.len()].copy_from_slice(ids);
        Ids { all, count: ids.len(), more }
    }

    pub fn ids(&self) -> &[i64] {
        &self.all[..self.count]
    }
}

impl fmt::Display for Ids {
    fn fmt(&self, f: &mut fmt::Formatter) -> fmt::Result {
        self.ids().iter().try_for_each(|id| write!(f, " {id}"))
    }
}

#[derive(Clone, Copy, PartialEq, Debug)]
pub enum Call {
    SetUp(Sizes),
    Check,
    Set(i64),
    New(i64),
    Put(i64),
    Prepare(i64),
    From,
    Merge,
    Get(i64),
    Any(i64, i64),
    Len,
    Chunks,
    Empty,
    Has,
    Chunk(i64),
    Iter(i64),
    Mark(Ranges),
    GetAll(Ids),
    RankAll(Ids),
    RankIfAll(Ids),
    InsertAll(Ids),
    RankUp,
    Open,
    Rank(i64),
    RankIf(i64),
    Total,
    Plan { slots: u64, room: u64 },
    Part { record: Record, room: u64, k: u64 },
    Meet { record: Record, room: u64, k: u64, ranges: Ranges },
    Slots(u64),
    Bounded(i64, u64, u64),
}

impl Call {
    /// The line for set k, into which a union takes the other one. The last two speak of no set.
    pub fn line(&self, k: usize) -> String {
        match *self {
            Call::SetUp(z) => format!("setup {k} {} {} {} {} {} {}", z.s, z.m, z.d, z.v, z.r, z.p),
            Call::Check => format!("check {k}"),
            Call::Set(id) => format!("set {k} {id}"),
            Call::New(id) => format!("new {k} {id}"),
            Call::Put(id) => format!("put {k} {id}"),
            Call::Prepare(max) => format!("prepare {k} {max}"),
            Call::From => format!("from {k} {}", 1 - k),
            Call::Merge => format!("merge {k} {}", 1 - k),
            Call::Get(id) => format!("get {k} {id}"),
            Call::Any(min, max) => format!("any {k} {min} {max}"),
            Call::Len => format!("len {k}"),
            Call::Chunks => format!("chunks {k}"),
            Call::Empty => format!("empty {k}"),
            Call::Has => format!("has {k}"),
            Call::Chunk(id) => format!("chunk {k} {id}"),
            Call::Iter(start) => format!("iter {k} {start}"),
            Call::Mark(ranges) => format!("mark {k}{ranges}"),
            Call::GetAll(ids) => format!("getall {k}{ids}"),
            Call::RankAll(ids) => format!("rankall {k}{ids}"),
            Call::RankIfAll(ids) => format!("rankifall {k}{ids}"),
            Call::InsertAll(ids) => format!("insertall {k}{ids}"),
            Call::RankUp => format!("rankup {k}"),
            Call::Open => format!("open {k}"),
            Call::Rank(id) => format!("rank {k} {id}"),
            Call::RankIf(id) => format!("rankif {k} {id}"),
            Call::Total => format!("total {k}"),
            Call::Plan { slots, room } => format!("plan {k} {slots} {room}"),
            Call::Part { record: r, room, k: part } => format!("part {k} {} {} {} {room} {part}", r.total, r.slots, r.partitions),
            Call::Meet { record: r, room, k: part, ranges } => format!("meet {k} {} {} {} {room} {part}{ranges}", r.total, r.slots, r.partitions),
            Call::Slots(b) => format!("slots {b}"),
            Call::Bounded(claim, length, per) => format!("bounded {claim} {length} {per}"),
        }
    }

    /// Whether the call is given a set's memory at all.
    pub fn of_a_set(&self) -> bool {
        !matches!(self, Call::Part { .. } | Call::Meet { .. } | Call::Slots(_) | Call::Bounded(..))
    }

    /// Whether the call speaks of both sets.
    pub fn is_union(&self) -> bool {
        matches!(self, Call::From | Call::Merge)
    }

    /// Whether an accepted call may change a set's memory. Planning writes boundaries alone.
    pub fn writes(&self) -> bool {
        self.is_union() || matches!(self, Call::SetUp(_) | Call::Set(_) | Call::New(_) | Call::Put(_) | Call::Prepare(_) | Call::InsertAll(_) | Call::RankUp | Call::Open)
    }
}

#[derive(Clone, PartialEq, Debug)]
pub enum Said {
    Ok,
    Yes(bool),
    Truth(bool),
    Number(u64),
    Signed(i64),
    Nothing,
    Refused(u64),
    Planned(Record, Vec<i64>),
    /// A record of iteration: its ids, the end mark, the next start.
    Listed { ids: Vec<i64>, end: bool, next: i64 },
    Marks(Vec<bool>),
    /// Ranks of a list, none where an id has none.
    Ranks(Vec<Option<u64>>),
    /// Ids taken, those of them that were new, and 0 or what refused the next one.
    Inserted { taken: u64, fresh: u64, refusal: u64 },
    /// What `ids` and `ranks` say of a partition.
    Part { ids: Result<(i64, Option<i64>), u64>, ranks: Result<(u64, u64), u64> },
}

impl Said {
    pub fn refusal(&self) -> Option<u64> {
        match *self {
            Said::Refused(c) | Said::Part { ids: Err(c), .. } => Some(c),
            // one that took no id changed nothing
            Said::Inserted { taken: 0, refusal, .. } => (refusal != 0).then_some(refusal),
            _ => None,
        }
    }
}

impl fmt::Display for Said {
    fn fmt(&self, f: &mut fmt::Formatter) -> fmt::Result {
        match self {
            Said::Ok => write!(f, "ok"),
            Said::Yes(b) => write!(f, "{}", if *b { "yes" } else { "no" }),
            Said::Truth(b) => write!(f, "{b}"),
            Said::Number(n) => write!(f, "{n}"),
            Said::Signed(n) => write!(f, "{n}"),
            Said::Nothing => write!(f, "none"),
            Said::Refused(c) => write!(f, "refused {c}"),
            Said::Planned(r, bounds) => {
                write!(f, "{} {} {}", r.total, r.slots, r.partitions)?;
                bounds.iter().try_for_each(|b| write!(f, " {b}"))
            }
            Said::Listed { ids, end, next } => {
                write!(f, "{} {end} {next}", ids.len())?;
                ids.iter().try_for_each(|id| write!(f, " {id}"))
            }
            Said::Marks(marks) => write!(f, "{}", marks.iter().map(|&m| if m { "1" } else { "0" }).collect::<Vec<_>>().join(" ")),
            Said::Ranks(ranks) => {
                let words: Vec<String> = ranks.iter().map(|rank| rank.map_or_else(|| "none".to_string(), |n| n.to_string())).collect();
                write!(f, "{}", words.join(" "))
            }
            Said::Inserted { taken, fresh, refusal: 0 } => write!(f, "{taken} {fresh}"),
            Said::Inserted { taken, fresh, refusal } => write!(f, "{taken} {fresh} refused {refusal}"),
            // as replay says it: where both answer, else what `ids` refuses with
            Said::Part { ids: Err(c), .. } | Said::Part { ranks: Err(c), .. } => write!(f, "refused {c}"),
            Said::Part { ids: Ok((low, high)), ranks: Ok((first, count)) } => {
                if *low == i64::MIN { write!(f, "min")? } else { write!(f, "{low}")? }
                if let Some(h) = high { write!(f, " {h}")? } else { write!(f, " end")? }
                write!(f, " {first} {count}")
            }
        }
    }
}
