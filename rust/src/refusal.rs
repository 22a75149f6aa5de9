//! Refusals, with document 01's numbers.
use std::error::Error;
use std::fmt;

/// Why a call was refused. A refused call changed nothing.
///
/// ```
/// use brothpillow::{Refusal, Set, Sizes};
///
/// let mut set = Set::new(Sizes { s: 9, m: 4, d: 1, v: 0, r: 1, p: 0 })?;
/// assert_eq!(set.rank(5), Err(Refusal::IsOpen));
/// assert_eq!(Refusal::IsOpen.number(), 5);
/// assert_eq!(Refusal::IsOpen.to_string(), "refused with 5: the set is open");
/// # Ok::<(), Refusal>(())
/// ```
#[derive(Clone, Copy, Debug, PartialEq, Eq, PartialOrd, Ord, Hash)]
#[repr(u8)]
pub enum Refusal {
    /// 1. Set-up: a number outside the table of sizes.
    OutsideSizes = 1,
    /// 2. Set-up: a slice shorter than the sizes need.
    TooShort = 2,
    /// 3. Memory is not as the layout says; of a plan: no slots, the wrong number of partitions, or too few boundaries.
    NotLaidOut = 3,
    /// 4. An insert, preparation, union or ranking wants an open set, and this one is ranked.
    IsRanked = 4,
    /// 5. Ranks, planning and leaving the ranked form want a ranked set, and this one is open.
    IsOpen = 5,
    /// 6. More overflow entries needed than `v`.
    OverflowFull = 6,
    /// 7. More sparse chunks needed than `r`.
    RowsFull = 7,
    /// 8. More dense chunks needed than `p`.
    PagesFull = 8,
    /// 9. Prepared insert: the id is negative, or its chunk is not dense.
    NotPrepared = 9,
    /// 10. Union: the `s` or the `m` of the two sets differ.
    SizesDiffer = 10,
    /// 11. Planning: more boundaries than there is room for.
    NoRoom = 11,
    /// 12. No partition has this number.
    NoPartition = 12,
}

impl Refusal {
    /// All of them, in the order of their numbers.
    pub const ALL: [Refusal; 12] = [
        Refusal::OutsideSizes,
        Refusal::TooShort,
        Refusal::NotLaidOut,
        Refusal::IsRanked,
        Refusal::IsOpen,
        Refusal::OverflowFull,
        Refusal::RowsFull,
        Refusal::PagesFull,
        Refusal::NotPrepared,
        Refusal::SizesDiffer,
        Refusal::NoRoom,
        Refusal::NoPartition,
    ];

    /// Document 01's number.
    pub const fn number(self) -> u64 {
        self as u64
    }

    /// The refusal with this number, 1 to 12.
    pub fn from_number(number: u64) -> Option<Refusal> {
        let place = usize::try_from(number.checked_sub(1)?).ok()?;
        Refusal::ALL.get(place).copied()
    }

    /// What an answer's field says: 0 is no refusal. The library gives no number above 12; one that came all the same
    /// is another library's, whose memory this is not.
    #[inline]
    pub(crate) fn unless_zero(refusal: u64) -> Result<(), Refusal> {
        if refusal == 0 { Ok(()) } else { Err(Refusal::from_number(refusal).unwrap_or(Refusal::NotLaidOut)) }
    }

    fn sentence(self) -> &'static str {
        match self {
            Refusal::OutsideSizes => "a number is outside the table of sizes",
            Refusal::TooShort => "a slice is shorter than the sizes need",
            Refusal::NotLaidOut => "memory is not as the layout says",
            Refusal::IsRanked => "the set is ranked",
            Refusal::IsOpen => "the set is open",
            Refusal::OverflowFull => "more overflow entries are needed than there are",
            Refusal::RowsFull => "more rows are needed than there are",
            Refusal::PagesFull => "more pages are needed than there are",
            Refusal::NotPrepared => "the id is negative, or its chunk is not dense",
            Refusal::SizesDiffer => "the sets differ in s or m",
            Refusal::NoRoom => "there is no room for so many boundaries",
            Refusal::NoPartition => "no partition has this number",
        }
    }
}

impl fmt::Display for Refusal {
    fn fmt(&self, f: &mut fmt::Formatter<'_>) -> fmt::Result {
        write!(f, "refused with {}: {}", self.number(), self.sentence())
    }
}

impl Error for Refusal {}
