//! Calls over a list of ids: in random sequences, and what came up in them.
use crate::call::{Call, Ids, Said};
use crate::script::Script;

#[derive(Clone, Copy)]
enum Kind {
    Members,
    Others,
    /// In one list, so that a shift shows.
    Both,
    Ranks,
    NoRanks,
    FewerIds,
    FewerAnswers,
    OldAndNew,
    RefusedAtOnce,
    RefusedLater,
    Refused3,
    Refused5,
}

const NAMES: [&str; 12] = [
    "members in a list of ids", "other ids in a list", "lists of ids with both", "ranks in a list", "ids without a rank in a list", "lists with fewer ids",
    "lists with fewer answers", "lists inserted with old and new ids", "lists refused at once", "lists refused later", "lists of ids refused 3", "lists of ids refused 5",
];

#[derive(Default)]
pub struct Many([u64; NAMES.len()]);

impl Many {
    fn count(&mut self, kind: Kind, n: usize) {
        self.0[kind as usize] += n as u64;
    }

    pub fn said(&mut self, ids: &Ids, said: &Said) {
        match said {
            Said::Marks(marks) => {
                let members = marks.iter().filter(|&&mark| mark).count();
                self.count(Kind::Members, members);
                self.count(Kind::Others, marks.len() - members);
                self.count(Kind::Both, (0 < members && members < marks.len()).into());
            }
            Said::Ranks(ranks) => {
                let some = ranks.iter().flatten().count();
                self.count(Kind::Ranks, some);
                self.count(Kind::NoRanks, ranks.len() - some);
            }
            &Said::Inserted { taken, fresh, refusal } => {
                self.count(Kind::OldAndNew, (0 < fresh && fresh < taken).into());
                self.count(Kind::RefusedAtOnce, (taken == 0 && refusal != 0).into());
                self.count(Kind::RefusedLater, (taken != 0 && refusal != 0).into());
            }
            _ => {
                self.count(Kind::Refused3, (*said == Said::Refused(3)).into());
                self.count(Kind::Refused5, (*said == Said::Refused(5)).into());
            }
        }
        let [more_ids, more_answers] = ids.more;
        self.count(Kind::FewerIds, (more_ids < more_answers).into());
        self.count(Kind::FewerAnswers, (more_answers < more_ids).into());
    }

    pub fn kinds(&self) -> impl Iterator<Item = (String, u64)> {
        NAMES.iter().zip(self.0).map(|(name, n)| (name.to_string(), n))
    }
}

impl Script<'_> {
    /// Inserts on an open set more often than not, ranks on a ranked one.
    pub fn many(&mut self, k: usize) {
        let ids = self.ids(k);
        let ranked = self.sides[k].is_ranked();
        let call = match self.random.below(8) {
            0..=3 if ranked => Call::RankAll(ids),
            0..=3 => Call::InsertAll(ids),
            4 => Call::InsertAll(ids),
            5 => Call::RankAll(ids),
            6 => Call::RankIfAll(ids),
            _ => Call::GetAll(ids),
        };
        self.say(k, call);
        self.say(k, if ranked { Call::RankIfAll(ids) } else { Call::GetAll(ids) });
    }

    /// One to eight ids: edges, members and their neighbours, or some that rise by one; at times one of them twice.
    fn ids(&mut self, k: usize) -> Ids {
        let count = 1 + self.random.below(8) as usize;
        let mut ids = [0; 8];
        let first = self.end(k);
        let rising = self.random.one_in(2);
        for (i, id) in ids[..count].iter_mut().enumerate() {
            *id = if rising { first.saturating_add(i as i64) } else { self.end(k) };
        }
        if self.random.one_in(3) {
            ids[count - 1] = ids[self.random.below(count as u64) as usize];
        }
        let more = self.more_of_one();
        Ids::new(&ids[..count], more)
    }

    /// Lists of one length, or up to three elements more in one of them.
    fn more_of_one(&mut self) -> [usize; 2] {
        let n = self.random.below(4) as usize;
        match self.random.below(4) {
            0 if self.way.lends_lists() => [n, 0],
            1 if self.way.lends_lists() => [0, n],
            _ => [0, 0],
        }
    }
}
