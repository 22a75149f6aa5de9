//! Node sets, ranks and cuts for road maps: the proved library Brothpillow, from Rust.
//!
//! A [`Set`] holds ids of 0 or more in four slices of fixed sizes, which it owns or is lent. Chunks of 2^s ids are sorted
//! lists up to m members and bit maps above. A ranked set tells how many members lie below an id, and a [`Plan`] cuts it
//! into partitions of equally many members.
//!
//! ```
//! use brothpillow::{Refusal, Set, Sizes};
//!
//! fn main() -> Result<(), Refusal> {
//!     let mut set = Set::new(Sizes::for_members(1_000, 1_000_000)?)?;
//!     for id in [700_000, 5, 9, 5] {
//!         set.set(id)?;
//!     }
//!     assert_eq!(set.len(), Ok(3));
//!
//!     set.into_ranked()?;
//!     assert_eq!(set.rank(9), Ok(1));
//!     assert_eq!(set.rank_if_set(8), Ok(None));
//!
//!     for part in set.plan(2)?.partitions() {
//!         for id in set.range(part.ids) {
//!             assert!(part.ranks().contains(&set.rank(id?)?));
//!         }
//!     }
//!     Ok(())
//! }
//! ```
//!
//! No call panics, and none allocates but [`Set::new`] and [`Set::plan`]. What a call can't do it refuses, by one of the
//! twelve numbers of [`Refusal`], and then nothing has changed. No call trusts what memory holds: on memory that was
//! spoiled a call is refused with 3 or answers as `docs/EXCEPTIONS.md` has it.
//!
//! The calls, their costs and how to choose sizes are in `docs/CALLS.md` of the repository.
#![deny(missing_docs, unsafe_code)]
mod iter;
mod memory;
mod plan;
mod ranges;
mod refusal;
mod set;
mod sizes;
pub mod sys;

pub use iter::Iter;
pub use memory::{Memory, MemoryMut, Owned, Slices, SlicesMut};
pub use plan::{Interval, Partition, Partitions, Plan};
pub use ranges::RangeList;
pub use refusal::Refusal;
pub use set::{Inserted, NO_RANK, Set};
pub use sizes::{Lengths, Sizes};

/// The slots that a budget of bytes buys, at least 1.
///
/// ```
/// assert_eq!(brothpillow::slots_for_budget(33), 4);
/// ```
pub fn slots_for_budget(bytes: u64) -> u64 {
    sys::slots_for_budget(bytes)
}

/// The highest id of a file that claims one: the smaller of the claim and what its length allows.
///
/// ```
/// assert_eq!(brothpillow::file_bounded_max_id(1_000, 20, 8), 160);
/// ```
pub fn file_bounded_max_id(claim: i64, length: u64, per_byte: u64) -> i64 {
    sys::file_bounded_max_id(claim, length, per_byte)
}
