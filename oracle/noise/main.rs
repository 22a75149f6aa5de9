//! Calls on memory that no call made: made sets with words poked into them, and pure noise. The check is compared with a second one, every call
//! answers what document 01 lets it, a refusal and a reading call leave all as it was, and where memory follows the layout answer and memory after
//! are the plain set's; where it doesn't, the answer falls under a row of docs/EXCEPTIONS.md, and every row comes up. Unions are made of two such memories;
//! marks of a range list are what the range test answers, answers to a list of ids what the single calls say.
//! Arguments: how many times the usual number of rounds, the seed, and for one round alone its sizes' place and its number.
mod answer;
mod bad;
mod call;
#[path = "../calls.rs"]
mod calls;
mod choose;
#[path = "../compare/lent.rs"]
mod lent;
#[path = "../compare/lists.rs"]
mod lists;
mod many;
mod marks;
#[path = "../memory.rs"]
mod memory;
mod other;
mod plain;
#[path = "../compare/planning.rs"]
mod planning;
mod poke;
mod records;
mod rows;
mod second;
mod smallest;
mod unions;

use answer::{DONE, refused};
use bad::Bad;
use call::{Call, Record, Said};
use memory::{Memory, Needs, Sizes};
use plain::Plain;
use poke::Random;
use rows::{NAMES, Row};
use std::fmt::Arguments;

/// What memory stands for, or what is wrong with it.
type Judged = Result<Plain, Bad>;

fn judged(x: &Memory) -> Judged {
    second::read(x).map_err(|broken| Bad::new(x, broken))
}

/// s m D V R P, rounds, most calls that make a set. Document 01's tiny sizes, some around them, the program's.
const SIZES: [([u64; 6], u64, u64); 13] = [
    ([9, 4, 2, 1, 2, 1], 5000, 40),
    ([9, 4, 2, 3, 5, 4], 5000, 60),
    ([9, 1, 1, 2, 3, 3], 3000, 40),
    ([9, 1, 0, 5, 5, 5], 3000, 40),
    ([9, 2, 5, 0, 5, 1], 2000, 40),
    ([9, 4, 3, 5, 0, 5], 2000, 20),
    ([9, 3, 0, 0, 0, 0], 500, 5),
    ([10, 5, 1, 4, 5, 0], 2000, 60),
    ([11, 4, 2, 5, 5, 5], 3000, 80),
    ([12, 3, 1, 2, 2, 3], 1000, 80),
    ([9, 1024, 1, 1, 2, 1], 100, 1800),
    ([25, 1, 1, 3, 3, 0], 1000, 20),
    ([12, 64, 16, 16, 32, 16], 100, 900),
];

/// Pokes, and pieces of noise, in a round.
const POKES: u64 = 12;

/// Where memory comes from.
#[derive(Clone, Copy, Default)]
enum From {
    #[default]
    Made,
    Poked,
    Noise,
}

#[derive(Default)]
struct Run {
    place: String,
    from: From,
    rounds: u64,
    calls: u64,
    /// Refusals by number, calls that changed memory, the check's yes and no by where memory comes from.
    refusals: [u64; 13],
    changes: u64,
    yes: [u64; 3],
    no: [u64; 3],
    /// How often each rule alone was broken.
    alone: [u64; 19],
    /// Records of iteration that go on, by where memory comes from.
    goes_on: [u64; 3],
    /// Answers under each row of docs/EXCEPTIONS.md.
    rows: [u64; NAMES.len()],
    unions: unions::Tally,
    lists: marks::Tally,
    many: many::Tally,
}

impl Run {
    fn ensure(&self, fine: bool, what: Arguments, call: Option<Call>, before: &Memory) {
        if !fine {
            let (lent, broken, table) = (before.lent(), second::read(before).err(), before.table.iter().take(90).collect::<Vec<_>>());
            panic!("{}: {what}; call {call:?}, lent {lent:?}, rules broken {broken:?}, table from {table:?}", self.place);
        }
    }

    /// The second check's word on memory, which has to be the check's.
    fn judge(&mut self, x: &mut Memory) -> Judged {
        let judged = judged(x);
        let answer = x.bp_check();
        self.ensure(answer == judged.is_ok(), format_args!("the checks differ"), Some(Call::Check), x);
        match &judged {
            Ok(_) => self.yes[self.from as usize] += 1,
            Err(bad) => {
                self.no[self.from as usize] += 1;
                if let &[rule] = &bad.broken[..] {
                    self.alone[usize::from(rule)] += 1;
                }
            }
        }
        judged
    }

    /// The call on `work`, which is as `before` and is so again afterwards, unless the call changed it and is kept.
    fn one(&mut self, g: &mut Random, call: Call, before: &Memory, judged: &mut Judged, work: &mut Memory) -> Said {
        let said = call.make(work);
        let same = work == before;
        self.ensure(call.allows(&said), format_args!("{said:?} is no answer of this call"), Some(call), before);
        self.calls += 1;
        self.changes += u64::from(!same);
        if let Some(no) = said.refusal() {
            self.refusals[no as usize] += 1;
        }
        self.goes_on[self.from as usize] += u64::from(matches!(&said, Said::Listed(r) if r.refusal == 0 && !r.end));
        self.ensure(same || (call.writes() && said.refusal().is_none()), format_args!("memory changed"), Some(call), before);
        if g.one_in(8) {
            let mut again = before.clone();
            self.ensure(call.make(&mut again) == said && again == *work, format_args!("not the same a second time"), Some(call), before);
        }
        match (call, judged) {
            (_, Ok(set)) => self.followed(call, &said, before, set, work),
            (Call::SetUp(z), _) => self.set_up(z, &said, before, work),
            (Call::Check, _) => (),
            (_, Err(bad)) => self.elsewhere(call, &said, before, bad, work),
        }
        said
    }

    /// On memory that follows the layout: the answer and the set after it.
    fn followed(&self, call: Call, said: &Said, before: &Memory, set: &mut Plain, work: &mut Memory) {
        let mut after = if call.writes() { Some(set.clone()) } else { None };
        let wanted = after.as_mut().unwrap_or(set).call(call, before.lent());
        self.ensure(*said == wanted, format_args!("{said:?} and not {wanted:?}"), Some(call), before);
        let Some(after) = after else { return };
        let sizes = after.sizes;
        let fine = if work == before { after == *set } else { work.bp_check() && second::read(work) == Ok(after) };
        self.ensure(fine, format_args!("memory after the call is not the plain set's"), Some(call), before);
        self.ensure(past_stays(before, work, sizes.needs()), format_args!("an element past the sizes changed"), Some(call), before);
    }

    /// Set-up of memory that follows nothing.
    fn set_up(&self, z: Sizes, said: &Said, before: &Memory, work: &mut Memory) {
        let wanted = plain::set_up(z, before.lent()).map_or_else(refused, |()| DONE).into();
        self.ensure(*said == wanted, format_args!("{said:?} and not {wanted:?}"), Some(Call::SetUp(z)), before);
        if *said == DONE.into() {
            let fine = work.bp_check() && second::read(work) == Ok(Plain::empty(z)) && past_stays(before, work, z.needs());
            self.ensure(fine, format_args!("not set up"), Some(Call::SetUp(z)), before);
        }
    }

    /// Any other call on memory that does not follow the layout: the answer has its row in docs/EXCEPTIONS.md. The elements past the sizes stay here too.
    fn elsewhere(&mut self, call: Call, said: &Said, before: &Memory, bad: &Bad, work: &Memory) {
        self.ensure(other::fits(before, call, said), format_args!("{said:?} is not in the exception list"), Some(call), before);
        let wanted = bad.walking(call, before.lent()).or_else(|| bad.running(before, call));
        self.ensure(wanted.as_ref().is_none_or(|w| w == said), format_args!("{said:?} and not {wanted:?}"), Some(call), before);
        self.ensure(past_stays(before, work, bad.ends(before)), format_args!("an element past the sizes changed"), Some(call), before);
        if said.refusal().is_none() {
            self.under(bad.row_of(before, call, said), Some(call), before);
        }
    }

    fn under(&mut self, row: Result<Row, String>, call: Option<Call>, before: &Memory) {
        match row {
            Ok(row) => self.rows[row as usize] += 1,
            Err(why) => self.ensure(false, format_args!("{why}"), call, before),
        }
    }

    /// Planning writes boundaries alone, and those of the plan only.
    fn plan(&mut self, g: &mut Random, before: &Memory, judged: &Judged, work: &mut Memory) {
        let (room, slots) = (g.below(9) as usize, records::slots(g, before.table.get(8).copied().unwrap_or(0)));
        let marks: Vec<i64> = (0..room + 2).map(|_| g.next() as i64).collect();
        let mut bounds = marks.clone();
        let a = work.plan(slots, &mut bounds[..room]);
        let record = Record { total: a.total, slots: a.slots, partitions: a.partitions };
        let told = if a.refusal == 0 { Ok(record) } else { Err(a.refusal) };
        let written = told.map_or(0, |r| r.partitions as usize - 1);
        let known = a.refusal == 0 || matches!((a.refusal, a.total, a.slots, a.partitions), (3 | 5 | 11, 0, 0, 0));
        let fine = known && work == before && bounds[written..] == marks[written..];
        self.ensure(fine, format_args!("plan {slots} {room} answers {told:?}, or writes"), None, before);
        self.calls += 1;
        let fine = match judged {
            Ok(set) => set.plan(slots, room) == told.map(|r| (r, bounds[..written].to_vec())),
            Err(bad) => bad.plan_fits(before, slots, room, told, &bounds[..written]),
        };
        self.ensure(fine, format_args!("plan {slots} {room} answers {told:?}"), None, before);
        if let (Err(bad), Ok(_)) = (judged, told) {
            self.under(Ok(bad.row_of_plan()), None, before);
        }
        if told.is_err() {
            self.refusals[a.refusal as usize] += 1;
        }
    }

    /// Plan records that a caller made up.
    fn partitions(&mut self, g: &mut Random) {
        for _ in 0..8 {
            let refusal = records::partition(g).unwrap_or_else(|difference| panic!("{}: {difference}", self.place));
            self.calls += 3;
            self.refusals[refusal as usize] += 1;
        }
    }

    /// Every call on this memory. Now and then what a call made of it is kept for the calls after it.
    fn every_call(&mut self, g: &mut Random, mut before: Memory, z: Sizes) {
        let mut judged = self.judge(&mut before);
        let mut work = before.clone();
        self.plan(g, &before, &judged, &mut work);
        self.list(g, &before, &mut judged, &mut work, z);
        self.many(g, &before, &mut judged, &mut work, z);
        for call in choose::every_call(g, &before, z) {
            self.one(g, call, &before, &mut judged, &mut work);
            if work != before {
                if g.one_in(6) {
                    before.clone_from(&work);
                    judged = self.judge(&mut before);
                } else {
                    work.clone_from(&before);
                }
            }
        }
    }

    /// A set made by random calls, from none to so many that some are refused.
    fn made(&mut self, g: &mut Random, z: Sizes, most: u64) -> Memory {
        let mut before = Memory::new(z);
        before.kept = g.below(3) as usize;
        let mut judged = self.judge(&mut before);
        let count = g.below(most) / g.pick(&[1, 1, 2, 9]);
        let chunks = 1 + g.below(z.d + z.v + 2);
        for _ in 0..count {
            let near = 1 << (2 + g.below(z.s - 1));
            let id = (g.below(chunks) << z.s | g.below(near)) as i64;
            let call = g.pick(&[Call::Set, Call::SetIfNew, Call::SetIfNew, Call::SetIfNew, Call::SetPrepared, Call::PreAllocate]);
            let call = if matches!(call(0), Call::PreAllocate(_)) && g.below(4) > 0 { Call::SetIfNew(id) } else { call(id) };
            self.grow(g, call, &mut before, &mut judged);
        }
        if g.one_in(2) {
            self.grow(g, Call::IntoRanked, &mut before, &mut judged);
        }
        before
    }

    fn grow(&mut self, g: &mut Random, call: Call, x: &mut Memory, judged: &mut Judged) {
        let before = x.clone();
        let said = self.one(g, call, &before, judged, x);
        if said.refusal().is_none() {
            *judged = self::judged(x);
        }
    }

    fn round(&mut self, g: &mut Random, z: Sizes, most: u64) {
        self.rounds += 1;
        self.partitions(g);
        self.from = From::Made;
        let (made, beside) = (self.made(g, z, most), choose::beside(g, z));
        let other = self.made(g, beside, most);
        self.every_call(g, made.clone(), z);
        self.pair(g, &made, &other);
        for _ in 0..POKES {
            self.from = From::Poked;
            let [mut x, mut y] = [&made, &other].map(Memory::clone);
            poke::poke(g, &mut x, z);
            poke::poke(g, &mut y, beside);
            self.pairs(g, [&made, &other], [&x, &y]);
            self.every_call(g, x, z);
            self.from = From::Noise;
            let noise = poke::noise(g);
            let [a, b] = g.pick(&[[&made, &noise], [&noise, &other], [&noise, &noise]]);
            self.pair(g, a, b);
            self.every_call(g, noise, z);
        }
    }

    fn tell(&self) {
        let ([made, poked, noise], [_, poked_no, noise_no]) = (self.yes, self.no);
        println!(
            "noise: {} rounds, {} calls, {} changes, refusals 1 to 12 {:?}; both checks: {made} made sets yes, poked {poked} yes {poked_no} no, \
             noise {noise} yes {noise_no} no; rules 1 to 18 broken alone {:?}; records that go on {:?}",
            self.rounds, self.calls, self.changes, &self.refusals[1..], &self.alone[1..], self.goes_on
        );
        let rows: Vec<String> = NAMES.iter().zip(self.rows).map(|(name, n)| format!("{name} {n}")).collect();
        println!("noise: answers by the rows of docs/EXCEPTIONS.md: {}", rows.join(", "));
        println!("noise: unions {}", self.unions);
        println!("noise: range lists {}", self.lists);
        println!("noise: lists of ids {}", self.many);
    }

    /// The ends of the table of sizes, which no small memory shows.
    fn limits(&mut self, seed: u64) {
        self.from = From::Poked;
        for (z, x) in poke::at_limits() {
            self.place = format!("seed {seed}, limits {z:?}");
            self.pair(&mut Random::new(&[seed]), &x, &x);
            self.every_call(&mut Random::new(&[seed]), x, z);
        }
    }
}

/// Whether each slice is as it was from these lengths on, with what is not lent.
fn past_stays(a: &Memory, b: &Memory, [pages, rows, blocks, table]: [usize; 4]) -> bool {
    a.pages[pages..] == b.pages[pages..] && a.rows[rows..] == b.rows[rows..] && a.blocks[blocks..] == b.blocks[blocks..] && a.table[table..] == b.table[table..]
}

fn main() {
    let a: Vec<u64> = std::env::args().skip(1).map(|w| w.parse().expect("a number")).collect();
    let (times, seed) = (a.first().copied().unwrap_or(1), a.get(1).copied().unwrap_or(1));
    let mut run = Run::default();
    smallest::run();
    run.limits(seed);
    for (k, ([s, m, d, v, r, p], rounds, most)) in (0..).zip(SIZES) {
        let z = Sizes { s, m, d, v, r, p };
        for n in 0..rounds * times {
            if a.len() < 4 || (a[2], a[3]) == (k, n) {
                run.place = format!("seed {seed}, sizes {k} {z:?}, round {n}");
                run.round(&mut Random::new(&[seed, k, n]), z, most);
            }
        }
    }
    run.tell();
    if a.len() < 4 {
        assert!(run.alone[1..].iter().all(|&n| n > 0), "a rule was never broken alone");
        assert!(run.refusals[1..].iter().all(|&n| n > 0), "a refusal never came up");
        assert!(run.unions.all_came_up(), "a kind of union never came up");
        assert!(run.lists.all_came_up(), "a kind of range list never came up");
        assert!(run.many.all_came_up(), "a kind of list of ids never came up");
        assert!(run.goes_on.iter().all(|&n| n > 0), "a record that goes on never came up");
        assert!(run.rows.iter().all(|&n| n > 0), "a row of docs/EXCEPTIONS.md never came up");
    }
}
