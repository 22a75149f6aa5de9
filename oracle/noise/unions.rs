//! Union of two memories, either of which may be one that no call made: what it answers, both memories after it, and its row of docs/EXCEPTIONS.md.
use crate::answer::{Answer, DONE, refused};
use crate::bad::{Entry, page};
use crate::memory::{Memory, Needs};
use crate::plain::Plain;
use crate::poke::Random;
use crate::rows::Row;
use crate::second::{read, set_bits, standing};
use crate::{Judged, Run, judged, past_stays};
use std::fmt;

#[derive(Clone, Copy, PartialEq, Debug)]
pub enum Join {
    MergeFrom,
    Merge,
}

impl Join {
    pub fn make(self, x: &mut Memory, y: &mut Memory) -> Answer {
        match self {
            Join::MergeFrom => x.bp_merge_from(y).into(),
            Join::Merge => x.bp_merge(y).into(),
        }
    }
}

/// Refusals by number, and at 0 what was accepted: by whether destination and source follow the layout.
#[derive(Default)]
pub struct Tally([[[u64; 13]; 2]; 2]);

impl Tally {
    /// Memory that follows the layout is never the cause of a 3.
    pub fn all_came_up(&self) -> bool {
        let [[neither, source], [destination, both]] = &self.0;
        let came = |of: &[u64; 13]| [0, 4, 6, 7, 8, 10].iter().all(|&no| of[no] > 0);
        [neither, source, destination].iter().all(|of| came(of) && of[3] > 0) && came(both) && both[3] == 0
    }
}

impl fmt::Display for Tally {
    fn fmt(&self, f: &mut fmt::Formatter) -> fmt::Result {
        let told = |of: [u64; 13]| [0, 3, 4, 6, 7, 8, 10].map(|no: usize| of[no]);
        let [[neither, source], [destination, both]] = self.0.map(|of| of.map(told));
        write!(f, "accepted and refused with 3, 4, 6, 7, 8, 10: both sets follow the layout {both:?}, ")?;
        write!(f, "the destination alone {destination:?}, the source alone {source:?}, neither {neither:?}")
    }
}

/// Two memories and what they stand for.
pub struct Pair<'a> {
    x: &'a Memory,
    y: &'a Memory,
    here: Judged,
    there: Judged,
}

fn walked(judged: &Judged) -> Option<&Plain> {
    judged.as_ref().map_or_else(|bad| bad.walked.as_ref(), Some)
}

fn breaks(judged: &Judged, rules: &[u8]) -> bool {
    judged.as_ref().is_err_and(|bad| bad.breaks(rules))
}

impl<'a> Pair<'a> {
    pub fn new(x: &'a Memory, y: &'a Memory) -> Pair<'a> {
        Pair { x, y, here: judged(x), there: judged(y) }
    }

    /// The destination after it, or the refusal: 3 where either walk finds something wrong, else that of the sets that the tables speak of.
    pub fn after(&self, join: Join) -> Result<Plain, u64> {
        let (Some(here), Some(there)) = (walked(&self.here), walked(&self.there)) else { return Err(3) };
        let mut after = here.clone();
        after.union(there, join == Join::Merge)?;
        for k in self.turned(&after) {
            let chunk = after.chunks.get_mut(&k).expect("a chunk");
            chunk.offsets.extend(page(self.x, here.sizes.s, chunk.slot).map_or(vec![], set_bits));
            chunk.offsets.sort_unstable();
            chunk.offsets.dedup();
        }
        Ok(after)
    }

    /// Chunks that become dense with a page of their own: what it held is there too. Where a page is copied, nothing of it is left.
    fn turned(&self, after: &Plain) -> Vec<u64> {
        let sparse = |c: &u64| walked(&self.here).and_then(|h| h.chunks.get(c)).is_some_and(|k| !k.dense);
        after.chunks.iter().filter(|(c, k)| k.dense && sparse(c)).map(|(&c, _)| c).collect()
    }

    /// Whether a row is taken for a chunk that was absent.
    fn takes_row(&self, after: &Plain) -> bool {
        after.chunks.iter().any(|(c, k)| !k.dense && walked(&self.here).is_none_or(|h| !h.chunks.contains_key(c)))
    }

    /// Whether memory as it was, and rows of the source, account for a rule that the destination breaks.
    fn broken_before(&self, rule: u8) -> bool {
        breaks(&self.here, &[rule]) || rule == 10 && (breaks(&self.there, &[10]) || breaks(&self.here, &[11]))
    }

    /// Rows that are looked at: the source's, and those of the destination that they meet.
    fn any_row(&self, is: impl Fn(&Entry) -> bool) -> bool {
        let met = |c: &u64| walked(&self.there).is_some_and(|t| t.chunks.contains_key(c));
        let of = |judged: &Judged| judged.as_ref().is_err_and(|bad| bad.any(|e| is(e) && met(&e.chunk)));
        of(&self.here) || of(&self.there)
    }

    /// The row of an accepted union.
    pub fn row(&self, join: Join, after: &Plain) -> Row {
        match () {
            _ if self.any_row(|e| e.falling) => Row::Falling,
            _ if self.any_row(|e| e.far) => Row::Far,
            _ if breaks(&self.here, &[11]) && self.takes_row(after) => Row::FreeRow,
            _ if breaks(&self.here, &[12]) && !self.turned(after).is_empty() => Row::FreePage,
            _ if join == Join::Merge && self.there.is_err() => Row::WrittenOver,
            _ => Row::Elsewhere,
        }
    }
}

impl Run {
    /// A poked destination, a poked source, both; each set in either place.
    pub fn pairs(&mut self, g: &mut Random, made: [&Memory; 2], poked: [&Memory; 2]) {
        let k = g.below(2) as usize;
        self.pair(g, poked[k], made[1 - k]);
        self.pair(g, made[k], poked[1 - k]);
        self.pair(g, poked[k], poked[1 - k]);
    }

    pub fn pair(&mut self, g: &mut Random, x: &Memory, y: &Memory) {
        let pair = Pair::new(x, y);
        let join = g.pick(&[Join::MergeFrom, Join::Merge]);
        let after = pair.after(join);
        let (said, here, there) = self.union(&pair, join, &after);
        if g.one_in(8) {
            let (mut again, mut other) = (x.clone(), y.clone());
            self.ensure_pair(join.make(&mut again, &mut other) == said && again == here && other == there, "not the same a second time", join, &pair);
        }
        if let (Ok(after), true) = (&after, pair.here.is_err() || pair.there.is_err()) {
            self.rows[pair.row(join, after) as usize] += 1;
        }
        let place = &mut self.unions.0[usize::from(pair.here.is_ok())][usize::from(pair.there.is_ok())];
        place[after.err().unwrap_or(0) as usize] += 1;
    }

    fn union(&mut self, pair: &Pair, join: Join, after: &Result<Plain, u64>) -> (Answer, Memory, Memory) {
        let (mut x, mut y) = (pair.x.clone(), pair.y.clone());
        let said = join.make(&mut x, &mut y);
        self.calls += 1;
        self.ensure_pair(said == after.as_ref().map_or_else(|&no| refused(no), |_| DONE), "another answer", join, pair);
        match after {
            Err(no) => {
                self.refusals[*no as usize] += 1;
                self.ensure_pair(x == *pair.x && y == *pair.y, "memory changed", join, pair);
            }
            Ok(after) => {
                self.changes += 1;
                self.united(&mut x, after, join, pair);
                self.left(&mut y, join, pair);
            }
        }
        (said, x, y)
    }

    /// The destination stands for the union, and breaks no rule that it didn't break.
    fn united(&self, x: &mut Memory, after: &Plain, join: Join, pair: &Pair) {
        let broken = read(x).err().unwrap_or_default();
        self.ensure_pair(standing(x).as_ref() == Some(after), "another set", join, pair);
        self.ensure_pair(broken.iter().all(|&rule| pair.broken_before(rule)), "a rule is broken", join, pair);
        self.ensure_pair(x.bp_check() == broken.is_empty(), "the checks differ", join, pair);
        self.ensure_pair(past_stays(pair.x, x, after.sizes.needs()), "an element past the sizes changed", join, pair);
    }

    /// The source is as it was, or as set-up leaves it.
    fn left(&self, y: &mut Memory, join: Join, pair: &Pair) {
        let Some(Plain { sizes, .. }) = walked(&pair.there) else { return };
        let emptied = |y: &mut Memory| y.bp_check() && read(y) == Ok(Plain::empty(*sizes)) && past_stays(pair.y, y, sizes.needs());
        self.ensure_pair(if join == Join::Merge { emptied(y) } else { y == pair.y }, "another source", join, pair);
    }

    fn ensure_pair(&self, fine: bool, what: &str, join: Join, pair: &Pair) {
        if !fine {
            let source = pair.y.table.iter().take(90).collect::<Vec<_>>();
            let broken = pair.there.as_ref().err().map(|bad| &bad.broken);
            self.ensure(false, format_args!("{join:?}: {what}; source lent {:?}, rules broken {broken:?}, table from {source:?}", pair.y.lent()), None, pair.x);
        }
    }
}
