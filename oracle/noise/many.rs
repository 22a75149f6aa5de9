//! Calls over a list of ids on memory that may be one that no call made. Reading ones: where the walk finds something wrong 3, of an open set 5 for ranks, and
//! answers stay; else each answer is what the single call says, which then is never refused. Inserts are the single ones in turn, to the last element.
use crate::answer::{Answer, DONE, NONE, refused, value};
use crate::call::{Call, Said};
use crate::lent::answered;
use crate::memory::{Inserted, Memory, Sizes};
use crate::poke::Random;
use crate::{Judged, Run, choose};
use std::fmt;

/// Numbers that no call over a list answers.
const NEITHER: (u8, u64) = (7, 1 << 63);

#[derive(Default)]
pub struct Tally {
    /// Lists refused and answered: where memory doesn't follow the layout, where it does.
    lists: [[u64; 2]; 2],
    /// Ids that are no members and that are.
    members: [u64; 2],
    /// Lists inserted whole, refused at once, refused later: where memory doesn't follow the layout, where it does.
    inserts: [[u64; 3]; 2],
}

impl Tally {
    pub fn all_came_up(&self) -> bool {
        self.lists.iter().flatten().chain(&self.members).chain(self.inserts.iter().flatten()).all(|&n| n > 0)
    }
}

impl fmt::Display for Tally {
    fn fmt(&self, f: &mut fmt::Formatter) -> fmt::Result {
        let ([[refused, read], [open, followed]], [others, members]) = (self.lists, self.members);
        let [elsewhere, inserts] = self.inserts;
        write!(f, "{followed} read and {open} refused where memory follows the layout, elsewhere {read} read and {refused} refused; {members} members, {others} others; ")?;
        write!(f, "inserts whole, refused at once and later {inserts:?}, elsewhere {elsewhere:?}")
    }
}

/// How many more elements ids and answers have; one of them has none.
fn more(g: &mut Random) -> [usize; 2] {
    let n = g.below(3) as usize;
    g.pick(&[[n, 0], [0, n]])
}

impl Run {
    pub fn many(&mut self, g: &mut Random, before: &Memory, judged: &mut Judged, work: &mut Memory, z: Sizes) {
        let ids: Vec<i64> = (0..g.below(4)).map(|_| choose::ends(g, before, z).0).collect();
        let walks = judged.as_ref().map_or_else(|bad| bad.walked.is_some(), |_| true);
        let ranked = before.table.get(6) == Some(&1);
        let read = if walks { DONE } else { refused(3) };
        let rank = if walks && !ranked { refused(5) } else { read };
        let got = answered(&ids, more(g), NEITHER.0, |ids, answers| work.bp_get_all(ids, answers));
        let numbers = got.map(|(a, answers)| (Answer::from(a), answers.into_iter().map(|n| value(n.into())).collect()));
        self.same(g, &ids, Call::Get, read, numbers, before, judged, work);
        let got = answered(&ids, more(g), NEITHER.1, |ids, answers| work.bp_rank_all(ids, answers));
        let numbers = got.map(|(a, answers)| (Answer::from(a), answers.into_iter().map(value).collect()));
        self.same(g, &ids, Call::Rank, rank, numbers, before, judged, work);
        let got = answered(&ids, more(g), NEITHER.1, |ids, answers| work.bp_rank_if_set_all(ids, answers));
        let numbers = got.map(|(a, answers)| (Answer::from(a), answers.into_iter().map(|n| if n == u64::MAX { NONE } else { value(n) }).collect()));
        self.same(g, &ids, Call::RankIfSet, rank, numbers, before, judged, work);
        self.insert_all(&ids, before, judged.is_ok(), work);
    }

    /// The answer is this one, and each of the list is the single call's.
    #[allow(clippy::too_many_arguments)]
    fn same(
        &mut self, g: &mut Random, ids: &[i64], one: fn(i64) -> Call, wanted: Answer, told: Result<(Answer, Vec<Answer>), &str>, before: &Memory, judged: &mut Judged,
        work: &mut Memory,
    ) {
        let fine = work == before && told.as_ref().is_ok_and(|(a, _)| *a == wanted);
        self.ensure(fine, format_args!("the ids {ids:?} are told {told:?}, or memory changed"), Some(one(0)), before);
        self.calls += 1;
        self.many.lists[usize::from(judged.is_ok())][usize::from(wanted == DONE)] += 1;
        for (&id, answer) in ids.iter().zip(told.map_or(vec![], |(_, answers)| answers)) {
            let said = self.one(g, one(id), before, judged, work);
            self.ensure(said == Said::from(answer), format_args!("{answer:?} in a list and {said:?}"), Some(one(id)), before);
            if let Call::Get(_) = one(id) {
                self.many.members[answer.value as usize] += 1;
            }
        }
    }

    /// Memory is put back afterwards.
    fn insert_all(&mut self, ids: &[i64], before: &Memory, follows: bool, work: &mut Memory) {
        let mut singly = before.clone();
        let mut wanted = Inserted { taken: 0, fresh: 0, stop: 0 };
        for &id in ids {
            let a = Answer::from(singly.bp_set_if_new(id));
            if a.kind == 2 {
                wanted.stop = a.value;
                break;
            }
            wanted = Inserted { taken: wanted.taken + 1, fresh: wanted.fresh + a.value, stop: 0 };
        }
        let said = work.bp_insert_all(ids);
        self.ensure(said == wanted && *work == singly, format_args!("inserts of {ids:?} are told {said:?} and not {wanted:?}, or memory differs"), None, before);
        self.calls += 1;
        let how = if wanted.stop == 0 { 0 } else { 1 + usize::from(wanted.taken > 0) };
        self.many.inserts[usize::from(follows)][how] += 1;
        work.clone_from(before);
    }
}
