//! Iteration: record after record of up to 64 members.
use crate::memory::Slices;
use crate::refusal::Refusal;
use crate::sys::{self, Listing};
use std::iter::FusedIterator;
use std::ops::{Bound, RangeBounds};

/// The members of a set, or of a range of ids, in ascending order.
///
/// An item is a refusal where memory is not as the layout says, and then the last one. Memory that [`Set::new`] or
/// [`Set::set_up`] made and only a `Set` touched never gives one.
///
/// [`Set::new`]: crate::Set::new
/// [`Set::set_up`]: crate::Set::set_up
#[derive(Clone, Debug)]
pub struct Iter<'a> {
    set: Slices<'a>,
    record: Listing,
    /// How many of the record's ids were handed out.
    at: usize,
    /// Where the next record begins; none after the last.
    next: Option<i64>,
    /// No id above this one is asked for.
    last: i64,
}

const NOTHING: Listing = Listing { refusal: 0, ids: [0; 64], count: 0, end: true, next: 0 };

impl<'a> Iter<'a> {
    pub(crate) fn new(set: Slices<'a>, range: impl RangeBounds<i64>) -> Iter<'a> {
        let first = match range.start_bound() {
            Bound::Included(&id) => Some(id),
            Bound::Excluded(&id) => id.checked_add(1),
            Bound::Unbounded => Some(i64::MIN),
        };
        let last = match range.end_bound() {
            Bound::Included(&id) => Some(id),
            Bound::Excluded(&id) => id.checked_sub(1),
            Bound::Unbounded => Some(i64::MAX),
        };
        let last_or_least = last.unwrap_or(i64::MIN);
        let next = first.filter(|&first| last.is_some_and(|last| first <= last));
        Iter { set, record: NOTHING, at: 0, next, last: last_or_least }
    }

    /// The ids of the record that were not handed out yet.
    fn left(&self) -> &[i64] {
        let count = usize::try_from(self.record.count).unwrap_or(usize::MAX);
        let ids = self.record.ids.get(..count).unwrap_or(&self.record.ids);
        ids.get(self.at..).unwrap_or(&[])
    }

    /// No more records, and none of this one.
    fn stop(&mut self) {
        self.next = None;
        self.record.count = 0;
    }

    /// The record from a start on. One that doesn't go on past its start is none of a set: iteration would not end.
    fn read(&mut self, start: i64) -> Result<(), Refusal> {
        self.stop();
        let record = sys::iter_from(self.set, start);
        Refusal::unless_zero(record.refusal)?;
        if !record.end {
            if record.next <= start {
                return Err(Refusal::NotLaidOut);
            }
            self.next = Some(record.next).filter(|&next| next <= self.last);
        }
        (self.record, self.at) = (record, 0);
        Ok(())
    }
}

impl Iterator for Iter<'_> {
    type Item = Result<i64, Refusal>;

    #[inline]
    fn next(&mut self) -> Option<Self::Item> {
        loop {
            if let Some(&id) = self.left().first() {
                if id > self.last {
                    self.stop();
                    return None;
                }
                self.at += 1;
                return Some(Ok(id));
            }
            let start = self.next?;
            if let Err(refusal) = self.read(start) {
                return Some(Err(refusal));
            }
        }
    }

    /// At least what is left of a record that lies wholly in the range.
    fn size_hint(&self) -> (usize, Option<usize>) {
        let left = self.left();
        let inside = left.partition_point(|&id| id <= self.last);
        (inside, if self.next.is_none() { Some(left.len()) } else { None })
    }
}

impl FusedIterator for Iter<'_> {}
