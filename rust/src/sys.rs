//! The entries of `brothpillow.h` over slices, with their answers as C gets them. The one module with `unsafe`.
//!
//! What C is asked for, a Rust slice is: a pointer that is aligned and not null, a true number of elements, and nothing
//! else that reads or writes a `&mut` one. No call keeps a pointer, and none asks anything of what memory holds: each
//! ends and does nothing undefined whatever stands there. So every function here is safe.
//!
//! In every answer `refusal` is 0 or document 01's number, and beside a number every other field is 0.
//! [`Inserted`] has none: the call itself is never refused.
#![allow(unsafe_code)]
use crate::memory::{Slices, SlicesMut};
use crate::sizes::Sizes;

/// Done, or refused.
#[repr(C)]
#[derive(Clone, Copy, Debug, PartialEq, Eq)]
pub struct Done {
    /// 0, or the refusal.
    pub refusal: u64,
}

/// Yes or no.
#[repr(C)]
#[derive(Clone, Copy, Debug, PartialEq, Eq)]
pub struct Truth {
    /// 0, or the refusal.
    pub refusal: u64,
    /// The answer.
    pub yes: bool,
}

/// A number.
#[repr(C)]
#[derive(Clone, Copy, Debug, PartialEq, Eq)]
pub struct Number {
    /// 0, or the refusal.
    pub refusal: u64,
    /// The answer.
    pub value: u64,
}

/// A number or none.
#[repr(C)]
#[derive(Clone, Copy, Debug, PartialEq, Eq)]
pub struct Optional {
    /// 0, or the refusal.
    pub refusal: u64,
    /// Whether there is a number.
    pub has: bool,
    /// The number, or 0.
    pub value: u64,
}

/// Up to 64 members, ascending.
#[repr(C)]
#[derive(Clone, Copy, Debug, PartialEq, Eq)]
pub struct Listing {
    /// 0, or the refusal.
    pub refusal: u64,
    /// The members; unused places hold 0.
    pub ids: [i64; 64],
    /// How many there are.
    pub count: u64,
    /// No member at or above the start is left out.
    pub end: bool,
    /// Where to go on; with the end mark, the start that was given.
    pub next: i64,
}

/// A plan that was made.
#[repr(C)]
#[derive(Clone, Copy, Debug, PartialEq, Eq)]
pub struct Planned {
    /// 0, or the refusal.
    pub refusal: u64,
    /// Members in all.
    pub total: u64,
    /// Members to a partition, at most.
    pub slots: u64,
    /// How many partitions there are.
    pub partitions: u64,
}

/// The ids of a partition: from low up to high, excluded, or from low on.
#[repr(C)]
#[derive(Clone, Copy, Debug, PartialEq, Eq)]
pub struct Interval {
    /// 0, or the refusal.
    pub refusal: u64,
    /// Whether there is a high end.
    pub has_high: bool,
    /// The low end, included.
    pub low: i64,
    /// The high end, excluded, or 0.
    pub high: i64,
}

/// The ranks of a partition.
#[repr(C)]
#[derive(Clone, Copy, Debug, PartialEq, Eq)]
pub struct RankedSpan {
    /// 0, or the refusal.
    pub refusal: u64,
    /// The first rank.
    pub first: u64,
    /// How many there are.
    pub count: u64,
}

/// How far inserts of a list came. What was taken before a refusal stays in the set, and is said beside it.
#[repr(C)]
#[derive(Clone, Copy, Debug, PartialEq, Eq)]
pub struct Inserted {
    /// How many ids were taken, from the first on.
    pub taken: u64,
    /// How many of them were new.
    pub fresh: u64,
    /// 0, or the refusal of the next id, which ended the call.
    pub stop: u64,
}

/// The three numbers of a plan, as `plan` answered them or as a caller made them up.
#[derive(Clone, Copy, Debug, PartialEq, Eq)]
pub struct Record {
    /// Members in all.
    pub total: u64,
    /// Members to a partition, at most.
    pub slots: u64,
    /// How many partitions there are.
    pub partitions: u64,
}

/// Declares each entry and makes it a function over slices. A slice is two arguments of C, pointer and number of elements;
/// a set is its four slices in their order, sizes are six numbers, a record is three.
macro_rules! entries {
    ($($(#[$doc:meta])* $name:ident = $entry:ident($($args:tt)*) -> $out:ty;)*) => {
        $(entries! { @ [$(#[$doc])* $name $entry $out] [] [] [] $($args)*, })*
    };
    (@ $head:tt [$($type:ty,)*] [$($value:expr,)*] [$($arg:tt)*] $x:ident: Slices, $($rest:tt)*) => {
        entries! { @ $head
            [$($type,)* *const u64, usize, *const u32, usize, *const u32, usize, *const u64, usize,]
            [$($value,)* $x.pages.as_ptr(), $x.pages.len(), $x.rows.as_ptr(), $x.rows.len(),
                $x.blocks.as_ptr(), $x.blocks.len(), $x.table.as_ptr(), $x.table.len(),]
            [$($arg)* $x: Slices<'_>,] $($rest)* }
    };
    (@ $head:tt [$($type:ty,)*] [$($value:expr,)*] [$($arg:tt)*] $x:ident: SlicesMut, $($rest:tt)*) => {
        entries! { @ $head
            [$($type,)* *mut u64, usize, *mut u32, usize, *mut u32, usize, *mut u64, usize,]
            [$($value,)* $x.pages.as_mut_ptr(), $x.pages.len(), $x.rows.as_mut_ptr(), $x.rows.len(),
                $x.blocks.as_mut_ptr(), $x.blocks.len(), $x.table.as_mut_ptr(), $x.table.len(),]
            [$($arg)* $x: SlicesMut<'_>,] $($rest)* }
    };
    (@ $head:tt [$($type:ty,)*] [$($value:expr,)*] [$($arg:tt)*] $x:ident: &[$of:ty], $($rest:tt)*) => {
        entries! { @ $head [$($type,)* *const $of, usize,] [$($value,)* $x.as_ptr(), $x.len(),] [$($arg)* $x: &[$of],] $($rest)* }
    };
    (@ $head:tt [$($type:ty,)*] [$($value:expr,)*] [$($arg:tt)*] $x:ident: &mut [$of:ty], $($rest:tt)*) => {
        entries! { @ $head [$($type,)* *mut $of, usize,] [$($value,)* $x.as_mut_ptr(), $x.len(),] [$($arg)* $x: &mut [$of],] $($rest)* }
    };
    (@ $head:tt [$($type:ty,)*] [$($value:expr,)*] [$($arg:tt)*] $x:ident: Sizes, $($rest:tt)*) => {
        entries! { @ $head [$($type,)* u64, u64, u64, u64, u64, u64,] [$($value,)* $x.s, $x.m, $x.d, $x.v, $x.r, $x.p,] [$($arg)* $x: Sizes,] $($rest)* }
    };
    (@ $head:tt [$($type:ty,)*] [$($value:expr,)*] [$($arg:tt)*] $x:ident: Record, $($rest:tt)*) => {
        entries! { @ $head [$($type,)* u64, u64, u64,] [$($value,)* $x.total, $x.slots, $x.partitions,] [$($arg)* $x: Record,] $($rest)* }
    };
    (@ $head:tt [$($type:ty,)*] [$($value:expr,)*] [$($arg:tt)*] $x:ident: $number:ident, $($rest:tt)*) => {
        entries! { @ $head [$($type,)* $number,] [$($value,)* $x,] [$($arg)* $x: $number,] $($rest)* }
    };
    (@ [$(#[$doc:meta])* $name:ident $entry:ident $out:ty] [$($type:ty,)*] [$($value:expr,)*] [$($arg:tt)*] $(,)?) => {
        $(#[$doc])*
        #[inline]
        pub fn $name($($arg)*) -> $out {
            unsafe extern "C" {
                fn $entry($(_: $type),*) -> $out;
            }
            // SAFETY: the declaration is the header's; each pointer and length is a slice's that is borrowed for the whole
            // call, alone where it is written, and the entry asks nothing of what numbers and memory hold.
            unsafe { $entry($($value),*) }
        }
    };
}

entries! {
    /// Makes an empty open set of these sizes.
    set_up = bp_set_up(sizes: Sizes, x: SlicesMut) -> Done;
    /// The full check: whether memory follows the layout.
    check = bp_check(x: Slices) -> bool;
    /// Inserts the id.
    set = bp_set(x: SlicesMut, id: i64) -> Done;
    /// Inserts the id; whether it is new.
    set_if_new = bp_set_if_new(x: SlicesMut, id: i64) -> Truth;
    /// Inserts the id into a dense chunk; whether it is new.
    set_prepared = bp_set_prepared(x: SlicesMut, id: i64) -> Truth;
    /// Makes every chunk from 0 to the maximum's dense.
    pre_allocate = bp_pre_allocate(x: SlicesMut, max: i64) -> Done;
    /// Union: x gets y's members.
    merge_from = bp_merge_from(x: SlicesMut, y: Slices) -> Done;
    /// Union: x gets y's members, and y is empty and open then.
    merge = bp_merge(x: SlicesMut, y: SlicesMut) -> Done;
    /// Whether the id is a member.
    get = bp_get(x: Slices, id: i64) -> Truth;
    /// Whether a member lies in min to max, both included.
    any_in_range = bp_any_in_range(x: Slices, min: i64, max: i64) -> Truth;
    /// The id's chunk, none for a negative id.
    chunk_of = bp_chunk_of(x: Slices, id: i64) -> Optional;
    /// How many members there are.
    len = bp_len(x: Slices) -> Number;
    /// Whether there is no member.
    is_empty = bp_is_empty(x: Slices) -> Truth;
    /// Whether there is a chunk, be it empty.
    has_any = bp_has_any(x: Slices) -> Truth;
    /// How many chunks there are, empty ones too.
    allocated_chunk_count = bp_allocated_chunk_count(x: Slices) -> Number;
    /// The 64 smallest members from a start on.
    iter_from = bp_iter_from(x: Slices, start: i64) -> Listing;
    /// Makes the counts for ranks.
    into_ranked = bp_into_ranked(x: SlicesMut) -> Done;
    /// Leaves the ranked form.
    into_open = bp_into_open(x: SlicesMut) -> Done;
    /// How many members lie below the id.
    rank = bp_rank(x: Slices, id: i64) -> Number;
    /// The rank of a member, none for any other id.
    rank_if_set = bp_rank_if_set(x: Slices, id: i64) -> Optional;
    /// How many members a ranked set has.
    total_count = bp_total_count(x: Slices) -> Number;
    /// Cuts a ranked set into partitions of at most so many members; boundaries go to the front of `bounds`.
    plan = bp_plan(x: Slices, slots: u64, bounds: &mut [i64]) -> Planned;
    /// The ids of partition k.
    ids = bp_ids(plan: Record, bounds: &[i64], k: u64) -> Interval;
    /// The ranks of partition k.
    ranks = bp_ranks(plan: Record, k: u64) -> RankedSpan;
    /// Whether an id lies in an interval.
    in_partition = bp_in_partition(id: i64, has_high: bool, low: i64, high: i64) -> bool;
    /// Whether the ids from min to max, both included, meet an interval.
    range_meets = bp_range_meets(min: i64, max: i64, has_high: bool, low: i64, high: i64) -> bool;
    /// Marks ranges that have a member with 1, others with 0: as many as the shortest of the three has.
    mark_ends_by_range = bp_mark_ends_by_range(lows: &[i64], highs: &[i64], marks: &mut [u8], x: Slices) -> Done;
    /// Marks ranges that meet partition k with 1, others with 0: as many as the shortest of the three has.
    mark_ends_by_partition = bp_mark_ends_by_partition(lows: &[i64], highs: &[i64], marks: &mut [u8], plan: Record, bounds: &[i64], k: u64) -> Done;
    /// Whether each id is a member, 1 or 0: as many as the shorter of the two has.
    get_all = bp_get_all(ids: &[i64], answers: &mut [u8], x: Slices) -> Done;
    /// The rank of each id: as many as the shorter of the two has.
    rank_all = bp_rank_all(ids: &[i64], answers: &mut [u64], x: Slices) -> Done;
    /// The rank of each member, 2^64 - 1 for any other id: as many as the shorter of the two has.
    rank_if_set_all = bp_rank_if_set_all(ids: &[i64], answers: &mut [u64], x: Slices) -> Done;
    /// Inserts ids up to the first that is refused.
    insert_all = bp_insert_all(ids: &[i64], x: SlicesMut) -> Inserted;
    /// The slots that a budget of bytes buys.
    slots_for_budget = bp_slots_for_budget(bytes: u64) -> u64;
    /// The smaller of a file's claim and what its length allows.
    file_bounded_max_id = bp_file_bounded_max_id(claim: i64, length: u64, per_byte: u64) -> i64;
}
