//! Every short sequence of calls, on one set and on two; after each of them everything is asked.
use crate::call::{Call, Ids, Ranges, Said, Sizes};
use crate::rust::BOUNDARIES;
use crate::script::Script;

/// A call and its set.
type On = (usize, Call);

fn news(k: usize, ids: impl IntoIterator<Item = i64>) -> impl Iterator<Item = On> {
    ids.into_iter().map(move |id| (k, Call::New(id)))
}

/// From nothing, with a chunk one short of dense, with two full rows, with a dense chunk.
pub fn one_set(script: &mut Script, z: Sizes, depth: u32) {
    let (chunk, m) = (1i64 << z.s, z.m as i64);
    let starts = [vec![], vec![0..m], vec![0..m, chunk..chunk + m], vec![0..m + 1, chunk..chunk + 1]];
    let new = [-1, 0, m, chunk, chunk + m, 2 * chunk, i64::MAX].map(Call::New);
    let put = [-1, m, chunk].map(Call::Put);
    let prepare = [-1, chunk - 1, chunk, 3 * chunk].map(Call::Prepare);
    let choices = [&new[..], &put, &prepare, &[Call::Set(1), Call::RankUp, Call::Open]].concat();
    let choices: Vec<On> = choices.into_iter().map(|call| (0, call)).collect();
    let ids = [i64::MIN, -1, 0, 1, m, chunk - 1, chunk, chunk + m, 2 * chunk, 2 * chunk + 1, i64::MAX];
    for start in starts {
        let start: Vec<On> = news(0, start.into_iter().flatten()).collect();
        script.all_sequences(&[z], &start, &choices, depth, &ids);
    }
}

/// Unions: from nothing, with two rows that have m members together, with rows that are full until a chunk becomes dense, with overflow entries and with pages
/// that are used up; the other set has the same sizes, no direct entries, or another m.
pub fn two_sets(script: &mut Script, z: Sizes, depth: u32) {
    let (chunk, m) = (1i64 << z.s, z.m as i64);
    let starts: [(Vec<i64>, Vec<i64>); 5] = [
        (vec![], vec![]),
        ((0..m - 1).collect(), vec![m - 2, m - 1]),
        ((0..m).chain([chunk]).collect(), vec![m, 2 * chunk]),
        (vec![0, 2 * chunk], vec![0, 3 * chunk]),
        ((0..=m).collect(), (chunk + 1..=chunk + m).collect()),
    ];
    let unions = [Call::From, Call::Merge, Call::RankUp, Call::Prepare(0)];
    let choices: Vec<On> = (0..2).flat_map(|k| unions.map(|call| (k, call))).chain(news(0, [m, chunk])).chain(news(1, [m, 2 * chunk])).collect();
    let ids = [-1, 0, m - 1, m, chunk, 2 * chunk, 3 * chunk];
    for (other, depth) in [(z, depth), (Sizes { d: 0, v: z.d + z.v, ..z }, depth), (Sizes { m: z.m.max(2) - 1, ..z }, depth - 1)] {
        for (here, there) in &starts {
            let start: Vec<On> = news(0, here.clone()).chain(news(1, there.clone())).collect();
            script.all_sequences(&[z, other], &start, &choices, depth, &ids);
        }
    }
}

/// Eight ranges or less between ids that rise: to the next one, of one id, back from the next one, and so on.
fn list(ids: &[i64]) -> Ranges {
    let ends = ids.windows(2).zip([(0, 1), (0, 0), (1, 0)].iter().cycle());
    let ends: Vec<(i64, i64)> = ends.map(|(pair, &(low, high))| (pair[low], pair[high])).take(8).collect();
    Ranges::new(&ends, [0; 3])
}

impl Script<'_> {
    /// Every sequence of so many calls out of `choices` after the calls of `start`, on sets of these sizes; after each everything is asked about `ids`.
    fn all_sequences(&mut self, sizes: &[Sizes], start: &[On], choices: &[On], depth: u32, ids: &[i64]) {
        for n in 0..(choices.len() as u64).pow(depth) {
            self.begin();
            for (k, &z) in sizes.iter().enumerate() {
                assert_eq!(self.say(k, Call::SetUp(z)), Said::Ok, "sizes that are not lent");
            }
            for &(k, call) in start {
                self.say(k, call);
            }
            let mut rest = n;
            for _ in 0..depth {
                let (k, call) = choices[(rest % choices.len() as u64) as usize];
                self.say(k, call);
                rest /= choices.len() as u64;
            }
            (0..sizes.len()).for_each(|k| self.ask_all(k, ids));
            self.way.end();
        }
    }

    /// Ranges of one id, and from each of these ids, which rise, to the next one and back; a list of some; records from some.
    fn ask_ranges(&mut self, k: usize, ids: &[i64]) {
        for pair in ids.windows(2) {
            self.say(k, Call::Any(pair[0], pair[0]));
            self.say(k, Call::Any(pair[0], pair[1]));
            self.say(k, Call::Any(pair[1], pair[0]));
        }
        self.say(k, Call::Mark(list(ids)));
        ids.iter().step_by(3).for_each(|&id| _ = self.say(k, Call::Iter(id)));
    }

    /// Everything about these ids, in the form that the set has, then ranked, then open again.
    fn ask_all(&mut self, k: usize, ids: &[i64]) {
        for call in [Call::Check, Call::Len, Call::Empty, Call::Has, Call::Chunks] {
            self.say(k, call);
        }
        ids.iter().for_each(|&id| _ = self.say(k, Call::Get(id)));
        let few = Ids::new(&ids[..ids.len().min(8)], [0; 2]);
        self.say(k, Call::GetAll(few));
        self.say(k, Call::RankAll(few));
        self.ask_ranges(k, ids);
        self.say(k, Call::RankUp);
        self.say(k, Call::Check);
        self.ask_ranges(k, ids);
        for &id in ids {
            self.say(k, Call::Rank(id));
            self.say(k, Call::RankIf(id));
        }
        self.say(k, Call::RankAll(few));
        self.say(k, Call::RankIfAll(few));
        for slots in 0..4 {
            for room in [0, 1, 3, BOUNDARIES as u64] {
                if let Said::Planned(record, _) = self.say(k, Call::Plan { slots, room }) {
                    (0..=record.partitions).for_each(|part| _ = self.say(k, Call::Part { record, room, k: part }));
                    if slots == 2 && room == 3 {
                        (0..=record.partitions).for_each(|part| _ = self.say(k, Call::Meet { record, room, k: part, ranges: list(ids) }));
                    }
                }
            }
        }
        self.say(k, Call::Open);
        self.say(k, Call::InsertAll(few));
        self.say(k, Call::GetAll(few));
        self.say(k, Call::Check);
    }
}
