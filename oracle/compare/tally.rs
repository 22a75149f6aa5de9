//! What has been compared: sequences, calls, and how often each kind of thing came up. A kind that never does is a failure of oracle/compare/run.
use crate::many::Many;
use crate::marks::Marks;
use crate::unions::Unions;
use std::fmt;

#[derive(Default)]
pub struct Tally {
    pub sequences: u64,
    pub calls: u64,
    /// By document 01's number.
    pub refusals: [u64; 13],
    /// Sparse chunks that became dense: with a direct entry, with an overflow entry.
    pub promotions: [u64; 2],
    /// Rows that a promotion freed and a new chunk took.
    pub rows_again: u64,
    /// Ranks asked of ids in dense chunks with an overflow entry.
    pub overflow_ranks: u64,
    /// Plans with two boundaries or more.
    pub several_boundaries: u64,
    /// Range tests that miss and that hit, those whose ends are the wrong way round.
    pub ranges: [u64; 2],
    pub inverted_ranges: u64,
    /// Records with exactly 63, 64, 65 members left, and those of them that go over an empty dense chunk.
    pub left: [u64; 3],
    pub over_empty: u64,
    /// Partitions whose `ids` refuses, boundaries being too few, and whose `ranks` answers.
    pub ranks_alone: u64,
    pub unions: Unions,
    pub marks: Marks,
    pub many: Many,
}

impl Tally {
    fn kinds(&self) -> Vec<(String, u64)> {
        let refusals = (1..).zip(&self.refusals[1..]).map(|(c, &n): (u64, _)| (format!("refused {c}"), n));
        let [direct, overflow] = self.promotions;
        let [miss, hit] = self.ranges;
        let [left_63, left_64, left_65] = self.left;
        let others = [
            ("promoted direct chunks", direct),
            ("promoted overflow chunks", overflow),
            ("freed rows used again", self.rows_again),
            ("ranks in dense overflow chunks", self.overflow_ranks),
            ("plans with several boundaries", self.several_boundaries),
            ("ranks where ids refuses", self.ranks_alone),
            ("range tests that miss", miss),
            ("range tests that hit", hit),
            ("ranges the wrong way round", self.inverted_ranges),
            ("records with 63 left", left_63),
            ("records with 64 left", left_64),
            ("records with 65 left", left_65),
            ("records over an empty dense chunk", self.over_empty),
        ];
        refusals.chain(others.map(|(name, n)| (name.to_string(), n))).chain(self.unions.kinds()).chain(self.marks.kinds()).chain(self.many.kinds()).collect()
    }
}

/// One line: what a reader wants, then the kinds, for adding up.
impl fmt::Display for Tally {
    fn fmt(&self, f: &mut fmt::Formatter) -> fmt::Result {
        write!(f, "{} sequences, {} calls equal, {} of them refusals", self.sequences, self.calls, self.refusals.iter().sum::<u64>())?;
        self.kinds().iter().try_for_each(|(name, n)| write!(f, "|{name}={n}"))
    }
}
