//! A plan: a ranked set cut into partitions of equally many members.
use crate::ranges::RangeList;
use crate::refusal::Refusal;
use crate::sys::{self, Record};
use std::iter::FusedIterator;
use std::ops::{Bound, Range, RangeBounds};

/// A ranked set's partitions, each with at most so many members: what [`Set::plan`](crate::Set::plan) answers.
///
/// ```
/// use brothpillow::{Refusal, Set, Sizes};
///
/// let mut set = Set::new(Sizes { s: 9, m: 4, d: 2, v: 1, r: 2, p: 1 })?;
/// for id in [0, 5, 7, 9] {
///     set.set(id)?;
/// }
/// set.into_ranked()?;
/// let plan = set.plan(3)?;
/// assert_eq!(plan.boundaries(), [8]);
/// for part in plan.partitions() {
///     let ids = set.range(part.ids).collect::<Result<Vec<i64>, Refusal>>()?;
///     assert_eq!(ids.len() as u64, part.count);
///     assert_eq!(set.rank(ids[0]), Ok(part.first));
/// }
/// # Ok::<(), Refusal>(())
/// ```
#[derive(Clone, Debug, PartialEq, Eq)]
pub struct Plan {
    record: Record,
    boundaries: Vec<i64>,
}

/// The ids of a partition: from `low` on, up to `high`, which is excluded, where there is one.
///
/// It is a range of ids, for [`Set::range`](crate::Set::range).
#[derive(Clone, Copy, Debug, PartialEq, Eq, Hash)]
pub struct Interval {
    /// The smallest id; of partition 0 the smallest `i64`.
    pub low: i64,
    /// The first id past the interval; none of the last partition.
    pub high: Option<i64>,
}

/// One partition of a plan.
#[derive(Clone, Copy, Debug, PartialEq, Eq, Hash)]
pub struct Partition {
    /// Its number, from 0.
    pub number: u64,
    /// Its ids.
    pub ids: Interval,
    /// The rank of its first member.
    pub first: u64,
    /// How many members it has.
    pub count: u64,
}

impl Plan {
    /// A plan of numbers and boundaries that were kept somewhere: those that a plan had, or refusal 3. Boundaries past
    /// those that the numbers need are dropped.
    pub fn from_parts(total: u64, slots: u64, partitions: u64, mut boundaries: Vec<i64>) -> Result<Plan, Refusal> {
        let record = Record { total, slots, partitions };
        Refusal::unless_zero(sys::ids(record, &boundaries, 0).refusal)?;
        boundaries.truncate(usize::try_from(partitions - 1).unwrap_or(usize::MAX));
        Ok(Plan { record, boundaries })
    }

    /// Members in all.
    pub fn total(&self) -> u64 {
        self.record.total
    }

    /// Members of a partition, at most: the number that was asked for, 1 where that was 0.
    pub fn slots(&self) -> u64 {
        self.record.slots
    }

    /// How many partitions there are, at least 1.
    pub fn partition_count(&self) -> u64 {
        self.record.partitions
    }

    /// Where partitions 1, 2, .. begin.
    pub fn boundaries(&self) -> &[i64] {
        &self.boundaries
    }

    /// The ids of partition k, or refusal 12.
    pub fn ids(&self, k: u64) -> Result<Interval, Refusal> {
        let answer = sys::ids(self.record, &self.boundaries, k);
        Refusal::unless_zero(answer.refusal)?;
        Ok(Interval { low: answer.low, high: answer.has_high.then_some(answer.high) })
    }

    /// The ranks of partition k, or refusal 12.
    pub fn ranks(&self, k: u64) -> Result<Range<u64>, Refusal> {
        let answer = sys::ranks(self.record, k);
        Refusal::unless_zero(answer.refusal)?;
        Ok(answer.first..answer.first.saturating_add(answer.count))
    }

    /// Partition k, or refusal 12.
    pub fn partition(&self, k: u64) -> Result<Partition, Refusal> {
        let (ids, ranks) = (self.ids(k)?, self.ranks(k)?);
        Ok(Partition { number: k, ids, first: ranks.start, count: ranks.end - ranks.start })
    }

    /// All partitions, in their order.
    pub fn partitions(&self) -> Partitions<'_> {
        Partitions { plan: self, next: 0 }
    }

    /// Marks each range that meets partition k, and clears the other marks; or refusal 12.
    ///
    /// ```
    /// use brothpillow::{Plan, RangeList, Refusal};
    ///
    /// let plan = Plan::from_parts(4, 2, 2, vec![6])?;
    /// let mut blocks = RangeList::from_iter([(0, 5), (5, 6), (6, 9)]);
    /// plan.mark_by_partition(1, &mut blocks)?;
    /// assert_eq!(blocks.marked().collect::<Vec<_>>(), [(5, 6), (6, 9)]);
    /// # Ok::<(), Refusal>(())
    /// ```
    pub fn mark_by_partition(&self, k: u64, list: &mut RangeList) -> Result<(), Refusal> {
        let (lows, highs, marks) = list.parts();
        Refusal::unless_zero(sys::mark_ends_by_partition(lows, highs, marks, self.record, &self.boundaries, k).refusal)
    }
}

impl Interval {
    /// Whether the id lies in the interval.
    pub fn in_partition(self, id: i64) -> bool {
        sys::in_partition(id, self.high.is_some(), self.low, self.high.unwrap_or(0))
    }

    /// Whether the ids from `min` to `max`, both included, meet the interval. Of ends the wrong way round, too, only
    /// `max >= low` and `min < high` are looked at.
    pub fn range_meets(self, min: i64, max: i64) -> bool {
        sys::range_meets(min, max, self.high.is_some(), self.low, self.high.unwrap_or(0))
    }
}

impl RangeBounds<i64> for Interval {
    fn start_bound(&self) -> Bound<&i64> {
        Bound::Included(&self.low)
    }

    fn end_bound(&self) -> Bound<&i64> {
        self.high.as_ref().map_or(Bound::Unbounded, Bound::Excluded)
    }
}

impl Partition {
    /// The ranks of its members.
    pub fn ranks(self) -> Range<u64> {
        self.first..self.first.saturating_add(self.count)
    }
}

/// The partitions of a plan, in their order.
#[derive(Clone, Debug)]
pub struct Partitions<'a> {
    plan: &'a Plan,
    next: u64,
}

impl Iterator for Partitions<'_> {
    type Item = Partition;

    /// The plan's numbers and boundaries were judged when it was made: of them only a number past the last is refused.
    fn next(&mut self) -> Option<Partition> {
        let part = self.plan.partition(self.next).ok()?;
        self.next += 1;
        Some(part)
    }

    fn size_hint(&self) -> (usize, Option<usize>) {
        let left = usize::try_from(self.plan.partition_count() - self.next).ok();
        (left.unwrap_or(usize::MAX), left)
    }
}

impl ExactSizeIterator for Partitions<'_> {}
impl FusedIterator for Partitions<'_> {}

impl<'a> IntoIterator for &'a Plan {
    type Item = Partition;
    type IntoIter = Partitions<'a>;

    fn into_iter(self) -> Partitions<'a> {
        self.partitions()
    }
}
