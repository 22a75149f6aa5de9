//! The six sizes of a set, the lengths that they need, and help to choose them.
use crate::memory::SlicesMut;
use crate::refusal::Refusal;
use crate::sys;

/// The six sizes of a set, by document 01's letters. Set-up checks them; so does every method here.
///
/// ```
/// use brothpillow::{Refusal, Sizes};
///
/// let sizes = Sizes { s: 12, m: 64, d: 16, v: 0, r: 32, p: 16 };
/// assert_eq!(sizes.lengths()?.pages, 16 << 6);
/// assert_eq!(sizes.bytes()?, 17_664);
/// assert_eq!(Sizes { s: 8, ..sizes }.check(), Err(Refusal::OutsideSizes));
/// # Ok::<(), Refusal>(())
/// ```
#[derive(Clone, Copy, Debug, PartialEq, Eq, Hash)]
pub struct Sizes {
    /// A chunk has 2^s ids: 9 to 25.
    pub s: u64,
    /// Members of a sparse chunk, at most: 1 to 1,024.
    pub m: u64,
    /// Direct entries, of the chunks below `d`: 0 to 262,144.
    pub d: u64,
    /// Overflow entries, for chunks from `d` on: 0 to 65,536.
    pub v: u64,
    /// Rows, one for each sparse chunk: 0 to 65,536.
    pub r: u64,
    /// Pages, one for each dense chunk: 0 to 65,536.
    pub p: u64,
}

/// How many elements each of the four slices has to have, at least.
#[derive(Clone, Copy, Debug, PartialEq, Eq, Hash)]
pub struct Lengths {
    /// Words of 64 bits.
    pub pages: usize,
    /// Numbers of 32 bits.
    pub rows: usize,
    /// Numbers of 32 bits.
    pub blocks: usize,
    /// Numbers of 64 bits.
    pub table: usize,
}

/// Ids of a block, one count each: 2^9.
const BLOCK: u64 = 9;
/// Ids of a word: 2^6.
const WORD: u64 = 6;
/// Numbers of the table's header.
const HEADER: u64 = 16;
/// Most direct entries.
const DIRECT: u64 = 262_144;

impl Sizes {
    /// Whether all six are allowed, else refusal 1.
    pub fn check(self) -> Result<(), Refusal> {
        let none = SlicesMut { pages: &mut [], rows: &mut [], blocks: &mut [], table: &mut [] };
        // set-up looks at the sizes first; where they are allowed it finds that empty slices are too short
        match sys::set_up(self, none).refusal {
            1 => Err(Refusal::OutsideSizes),
            _ => Ok(()),
        }
    }

    /// How long the four slices have to be.
    pub fn lengths(self) -> Result<Lengths, Refusal> {
        self.check()?;
        let [pages, rows, blocks, table] = self.needs().map(|n| n as usize);
        Ok(Lengths { pages, rows, blocks, table })
    }

    /// How many bytes the four slices take.
    pub fn bytes(self) -> Result<u64, Refusal> {
        self.check()?;
        let [pages, rows, blocks, table] = self.needs();
        Ok(8 * pages + 4 * rows + 4 * blocks + 8 * table)
    }

    /// Document 01's four lengths; the sizes are allowed.
    fn needs(self) -> [u64; 4] {
        let Sizes { s, m, d, v, r, p } = self;
        [p << (s - WORD), r * m, p << (s - BLOCK), HEADER + 2 * d + 3 * v + r + p]
    }

    /// Sizes that take any `members` ids from 0 to `highest`, in any order, and never refuse one for want of room
    /// (6, 7 or 8): of all those, first the ones with a direct entry for every chunk, and of these the ones that need the
    /// least memory.
    ///
    /// That is for the worst spread of the ids. Where they are known to lie close together, less may do: a page is needed
    /// for a chunk of more than `m` members, a row for one of fewer.
    ///
    /// Refused with 1 where no sizes of the table do: there can be 327,680 chunks, 65,536 of them sparse.
    /// Sets that are to be united want the same sizes: choose once for all of them.
    ///
    /// ```
    /// use brothpillow::{Refusal, Set, Sizes};
    ///
    /// let sizes = Sizes::for_members(3, 1_000_000_000)?;
    /// let mut set = Set::new(sizes)?;
    /// for id in [1_000_000_000, 0, 31_337] {
    ///     assert_eq!(set.set_if_new(id), Ok(true));
    /// }
    /// # Ok::<(), Refusal>(())
    /// ```
    pub fn for_members(members: u64, highest: i64) -> Result<Sizes, Refusal> {
        let each = (9..=25).rev().flat_map(|s| (1..=1024).map(move |m| (s, m)));
        let fitting = each.map(|(s, m)| Sizes::worst(s, m, members, highest));
        let cost = |sizes: Sizes| Some((sizes.bytes().ok()?, sizes));
        let least = fitting.filter_map(cost).min_by_key(|&(bytes, sizes)| (sizes.v > 0, bytes));
        least.map(|(_, sizes)| sizes).ok_or(Refusal::OutsideSizes)
    }

    /// Room for the worst spread: a chunk is dense from `m + 1` members on, and every member may have a chunk of its own.
    fn worst(s: u64, m: u64, members: u64, highest: i64) -> Sizes {
        let chunks = u64::try_from(highest).map_or(0, |id| (id >> s) + 1);
        let d = chunks.min(DIRECT);
        Sizes { s, m, d, v: (chunks - d).min(members), r: chunks.min(members), p: chunks.min(members / (m + 1)) }
    }
}
