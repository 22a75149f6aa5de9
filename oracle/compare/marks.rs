//! What came up in range lists: marks set and cleared by either call, which of the three lists was the shortest, and which refusals were given.
use crate::call::Ranges;

#[derive(Clone, Copy)]
enum Kind {
    ClearedByRange,
    SetByRange,
    ClearedByPartition,
    SetByPartition,
    /// In one list, so that a shift shows.
    BothByRange,
    BothByPartition,
    Inverted,
    InvertedMeets,
    FewestLows,
    FewestHighs,
    FewestMarks,
    Ranked,
    MarkRefused3,
    MeetRefused3,
    MeetRefused12,
}

const NAMES: [&str; 15] = [
    "marks cleared by range", "marks set by range", "marks cleared by partition", "marks set by partition", "lists with both marks by range",
    "lists with both marks by partition", "inverted ranges in a list", "inverted ranges that meet a partition", "lists with fewer lows",
    "lists with fewer highs", "lists with fewer marks", "marks by a ranked set", "mark refused 3", "meet refused 3", "meet refused 12",
];

#[derive(Default)]
pub struct Marks([u64; NAMES.len()]);

/// Marks, or the refusal.
pub type Marked = Result<Vec<bool>, u64>;

impl Marks {
    fn count(&mut self, kind: Kind, n: usize) {
        self.0[kind as usize] += n as u64;
    }

    pub fn by_range(&mut self, ranges: &Ranges, ranked: bool, said: &Marked) {
        self.list(ranges, said, [Kind::ClearedByRange, Kind::SetByRange, Kind::BothByRange]);
        self.count(Kind::Ranked, ranked.into());
        self.count(Kind::MarkRefused3, (*said == Err(3)).into());
    }

    pub fn by_partition(&mut self, ranges: &Ranges, said: &Marked) {
        self.list(ranges, said, [Kind::ClearedByPartition, Kind::SetByPartition, Kind::BothByPartition]);
        let meets = said.iter().flatten().zip(ranges.ends()).filter(|&(&mark, &(low, high))| mark && low > high);
        self.count(Kind::InvertedMeets, meets.count());
        self.count(Kind::MeetRefused3, (*said == Err(3)).into());
        self.count(Kind::MeetRefused12, (*said == Err(12)).into());
    }

    fn list(&mut self, ranges: &Ranges, said: &Marked, [cleared, set, both]: [Kind; 3]) {
        let Ok(marks) = said else { return };
        let hits = marks.iter().filter(|&&mark| mark).count();
        let misses = marks.len() - hits;
        self.count(cleared, misses);
        self.count(set, hits);
        self.count(both, (hits > 0 && misses > 0).into());
        self.count(Kind::Inverted, ranges.ends().iter().filter(|(low, high)| low > high).count());
        for (kind, is) in [(Kind::FewestLows, [0, 1, 2]), (Kind::FewestHighs, [1, 0, 2]), (Kind::FewestMarks, [2, 0, 1])] {
            let [fewest, other, another] = is.map(|list| ranges.more[list]);
            self.count(kind, (fewest < other.min(another)).into());
        }
    }

    pub fn kinds(&self) -> impl Iterator<Item = (String, u64)> {
        NAMES.iter().zip(self.0).map(|(name, n)| (name.to_string(), n))
    }
}
