//! The range list: ranges of ids with a mark each, as the block index of an extract has them.

/// Ranges of ids, both ends included, each with a mark that [`Set::mark_by_range`](crate::Set::mark_by_range) or
/// [`Plan::mark_by_partition`](crate::Plan::mark_by_partition) sets or clears. New ones are clear.
///
/// ```
/// use brothpillow::RangeList;
///
/// let mut blocks = RangeList::new();
/// blocks.push(0, 99);
/// blocks.push(100, 199);
/// assert_eq!(blocks.len(), 2);
/// assert_eq!(blocks.iter().next(), Some((0, 99, false)));
/// ```
#[derive(Clone, Debug, Default, PartialEq, Eq)]
pub struct RangeList {
    /// Three lists of one length.
    lows: Vec<i64>,
    highs: Vec<i64>,
    marks: Vec<u8>,
}

impl RangeList {
    /// A list without ranges.
    pub fn new() -> RangeList {
        RangeList::default()
    }

    /// One range more.
    pub fn push(&mut self, low: i64, high: i64) {
        self.lows.push(low);
        self.highs.push(high);
        self.marks.push(0);
    }

    /// How many ranges there are.
    pub fn len(&self) -> usize {
        self.marks.len()
    }

    /// Whether there is none.
    pub fn is_empty(&self) -> bool {
        self.marks.is_empty()
    }

    /// Low, high and mark of each.
    pub fn iter(&self) -> impl Iterator<Item = (i64, i64, bool)> {
        let ends = self.lows.iter().zip(&self.highs);
        ends.zip(&self.marks).map(|((&low, &high), &mark)| (low, high, mark == 1))
    }

    /// Low and high of the marked ones.
    pub fn marked(&self) -> impl Iterator<Item = (i64, i64)> {
        self.iter().filter(|range| range.2).map(|(low, high, _)| (low, high))
    }

    pub(crate) fn parts(&mut self) -> (&[i64], &[i64], &mut [u8]) {
        (&self.lows, &self.highs, &mut self.marks)
    }
}

impl Extend<(i64, i64)> for RangeList {
    fn extend<T: IntoIterator<Item = (i64, i64)>>(&mut self, ranges: T) {
        ranges.into_iter().for_each(|(low, high)| self.push(low, high));
    }
}

impl FromIterator<(i64, i64)> for RangeList {
    fn from_iter<T: IntoIterator<Item = (i64, i64)>>(ranges: T) -> RangeList {
        let mut list = RangeList::new();
        list.extend(ranges);
        list
    }
}
