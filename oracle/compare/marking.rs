//! Range lists in random sequences.
use crate::call::{Call, Ranges, Record};
use crate::script::Script;

/// The longest line that replay reads. With a long record seven long ranges fit, and eight don't.
const LINE: usize = 400;

impl Script<'_> {
    pub fn mark(&mut self, k: usize) {
        let ranges = self.ranges(k);
        self.say(k, Call::Mark(ranges));
    }

    pub fn meet(&mut self, k: usize, record: Record, room: u64, part: u64) {
        let ranges = self.ranges(k);
        let call = |ranges| Call::Meet { record, room, k: part, ranges };
        let fits = ranges.ends().len() < 8 || call(ranges).line(k).len() <= LINE;
        self.say(k, call(if fits { ranges } else { Ranges::new(&ranges.ends()[..7], ranges.more) }));
    }

    /// One to eight ranges: of one id, of a few, the wrong way round, or between any two ends.
    fn ranges(&mut self, k: usize) -> Ranges {
        let count = 1 + self.random.below(8) as usize;
        let mut ends = [(0, 0); 8];
        for range in &mut ends[..count] {
            let (a, b) = (self.end(k), self.end(k));
            *range = match self.random.below(6) {
                0 => (a, a),
                1 => (a, a.saturating_add(self.random.below(9) as i64)),
                2 => (a.max(b), a.min(b)),
                _ => (a.min(b), a.max(b)),
            };
        }
        let more = self.more();
        Ranges::new(&ends[..count], more)
    }

    /// An end of i64, a member, a boundary of the last plan, a chunk's first id or any other, or one beside it.
    pub fn end(&mut self, k: usize) -> i64 {
        let id = self.id(2 << self.sizes.s);
        let side = &self.sides[k];
        let at = match self.random.below(8) {
            0 => self.random.one_of(&[i64::MIN, i64::MAX]),
            1 | 2 => side.member_from(id).unwrap_or(id),
            3 | 4 => side.boundary(self.random.next() as usize).unwrap_or(id),
            5 => id >> self.sizes.s << self.sizes.s,
            _ => id,
        };
        at.saturating_add(self.random.below(3) as i64 - 1)
    }

    /// Lists of one length, or up to three elements more in two of them.
    fn more(&mut self) -> [usize; 3] {
        let mut more = [0; 3];
        if self.way.lends_lists() && self.random.one_in(2) {
            more = more.map(|_| self.random.below(4) as usize);
            more[self.random.below(3) as usize] = 0;
        }
        more
    }
}
