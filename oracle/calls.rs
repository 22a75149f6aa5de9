//! The calls on lent memory, through the crate in rust/: entries and answers as C has them.
use crate::memory::Memory;
use brothpillow::Sizes;
use brothpillow::sys::{self, Done, Inserted, Listing, Number, Optional, Truth};

/// How memory is lent, then calls, each with its arguments behind the set.
macro_rules! calls {
    ($slices:ident: $($name:ident = $entry:ident($($arg:ident: $ty:ty),*) -> $out:ty;)*) => {
        impl Memory {
            $(#[inline]
            pub fn $name(&mut self, $($arg: $ty),*) -> $out {
                sys::$entry(self.$slices(), $($arg),*)
            })*
        }
    };
}

calls! { slices_mut:
    bp_set = set(id: i64) -> Done;
    bp_set_if_new = set_if_new(id: i64) -> Truth;
    bp_set_prepared = set_prepared(id: i64) -> Truth;
    bp_pre_allocate = pre_allocate(max: i64) -> Done;
    bp_into_ranked = into_ranked() -> Done;
    bp_into_open = into_open() -> Done;
}

calls! { slices:
    bp_check = check() -> bool;
    bp_get = get(id: i64) -> Truth;
    bp_any_in_range = any_in_range(min: i64, max: i64) -> Truth;
    bp_chunk_of = chunk_of(id: i64) -> Optional;
    bp_len = len() -> Number;
    bp_is_empty = is_empty() -> Truth;
    bp_has_any = has_any() -> Truth;
    bp_allocated_chunk_count = allocated_chunk_count() -> Number;
    bp_iter_from = iter_from(start: i64) -> Listing;
    bp_rank = rank(id: i64) -> Number;
    bp_rank_if_set = rank_if_set(id: i64) -> Optional;
    bp_total_count = total_count() -> Number;
}

impl Memory {
    pub fn bp_set_up(&mut self, z: Sizes) -> Done {
        sys::set_up(z, self.slices_mut())
    }

    /// Union: the other set's members come here.
    pub fn bp_merge_from(&mut self, from: &Memory) -> Done {
        sys::merge_from(self.slices_mut(), from.slices())
    }

    pub fn bp_merge(&mut self, from: &mut Memory) -> Done {
        sys::merge(self.slices_mut(), from.slices_mut())
    }

    /// Of each id whether it is a member, here and below as many answers as the shorter of the two has.
    pub fn bp_get_all(&self, ids: &[i64], answers: &mut [u8]) -> Done {
        sys::get_all(ids, answers, self.slices())
    }

    pub fn bp_rank_all(&self, ids: &[i64], answers: &mut [u64]) -> Done {
        sys::rank_all(ids, answers, self.slices())
    }

    pub fn bp_rank_if_set_all(&self, ids: &[i64], answers: &mut [u64]) -> Done {
        sys::rank_if_set_all(ids, answers, self.slices())
    }

    /// Inserts ids up to the first that is refused.
    pub fn bp_insert_all(&mut self, ids: &[i64]) -> Inserted {
        sys::insert_all(ids, self.slices_mut())
    }

    /// Marks of a range list by range test: as many as the shortest of the three has.
    pub fn bp_mark_ends_by_range(&self, lows: &[i64], highs: &[i64], marks: &mut [u8]) -> Done {
        sys::mark_ends_by_range(lows, highs, marks, self.slices())
    }
}
