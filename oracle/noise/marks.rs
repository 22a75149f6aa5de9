//! Range lists on memory that may be one that no call made: where the walk finds something wrong 3, and marks stay; else each mark is what the range test
//! answers, which then is never refused.
use crate::answer::{Answer, DONE, refused, value};
use crate::call::Call;
use crate::lists::marked;
use crate::memory::{Memory, Sizes};
use crate::poke::Random;
use crate::rows::Row;
use crate::{Judged, Run, choose};
use std::fmt;

/// The rows of docs/EXCEPTIONS.md that a mark may fall under: those of the range test that are left after the walk.
const ROWS: [Row; 3] = [Row::Falling, Row::Negative, Row::Elsewhere];

#[derive(Default)]
pub struct Tally {
    /// Lists refused and marked: where memory doesn't follow the layout, where it does.
    lists: [[u64; 2]; 2],
    /// Marks cleared and set.
    marks: [u64; 2],
    rows: [u64; ROWS.len()],
}

impl Tally {
    /// Memory that follows the layout is never the cause of a 3.
    pub fn all_came_up(&self) -> bool {
        let [elsewhere, [refused, marked]] = self.lists;
        elsewhere.iter().chain(&self.marks).chain(&self.rows).all(|&n| n > 0) && marked > 0 && refused == 0
    }
}

impl fmt::Display for Tally {
    fn fmt(&self, f: &mut fmt::Formatter) -> fmt::Result {
        let ([[refused, marked], [_, followed]], [cleared, set]) = (self.lists, self.marks);
        let rows: Vec<String> = ROWS.iter().zip(self.rows).map(|(row, n)| format!("{} {n}", row.name())).collect();
        write!(f, "{followed} where memory follows the layout, elsewhere {marked} marked and {refused} refused; ")?;
        write!(f, "{set} marks set, {cleared} cleared; by rows elsewhere {}", rows.join(", "))
    }
}

/// How many more elements lows, highs and marks have; one of them has none.
pub fn more(g: &mut Random) -> [usize; 3] {
    let mut more = [(); 3].map(|()| g.below(3) as usize);
    more[g.below(3) as usize] = 0;
    more
}

impl Run {
    pub fn list(&mut self, g: &mut Random, before: &Memory, judged: &mut Judged, work: &mut Memory, z: Sizes) {
        let ends: Vec<(i64, i64)> = (0..g.below(4)).map(|_| choose::ends(g, before, z)).collect();
        let told = marked(&ends, more(g), |lows, highs, marks| work.bp_mark_ends_by_range(lows, highs, marks));
        let walks = judged.as_ref().map_or_else(|bad| bad.walked.is_some(), |_| true);
        let fine = work == before && told.as_ref().is_ok_and(|&(a, _)| Answer::from(a) == if walks { DONE } else { refused(3) });
        self.ensure(fine, format_args!("the range list {ends:?} is told {told:?}, or memory changed"), None, before);
        self.calls += 1;
        self.refusals[3] += u64::from(!walks);
        self.lists.lists[usize::from(judged.is_ok())][usize::from(walks)] += 1;
        for (&(low, high), mark) in ends.iter().zip(told.map_or(vec![], |(_, marks)| marks)) {
            self.mark(g, Call::Any(low, high), mark, before, judged, work);
        }
    }

    /// A mark that was set or cleared is the range test's answer, and falls under its row.
    fn mark(&mut self, g: &mut Random, call: Call, mark: bool, before: &Memory, judged: &mut Judged, work: &mut Memory) {
        let said = self.one(g, call, before, judged, work);
        self.ensure(said == value(mark.into()).into(), format_args!("the mark {mark} and {said:?}"), Some(call), before);
        self.lists.marks[usize::from(mark)] += 1;
        if let Err(bad) = judged {
            let row = bad.row_of(before, call, &said);
            let at = ROWS.iter().position(|known| row.as_ref() == Ok(known));
            self.ensure(at.is_some(), format_args!("a mark under the row {row:?}"), Some(call), before);
            self.lists.rows[at.unwrap_or(0)] += 1;
        }
    }
}
