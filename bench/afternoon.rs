//! The customer's afternoon on one side: ids are loaded, checked, ranked, cut into partitions, read partition by partition, and the rank of each is asked for.
//! A line for each step goes to standard output, progress to standard error. Making the ids is not counted.
use crate::clock::waited;
use crate::ids::Walk;
use crate::idset::IdSet;
use crate::machine::{Quiet, kind, peak};
use crate::memory::{Memory, Sizes};
use crate::sides::{Open, Part, Ranked};
use crate::table::short;
use std::time::Duration;

/// Ids, the last of them, and how many a partition holds.
struct Size {
    ids: u64,
    last: u64,
    slots: u64,
}

const FULL: Size = Size { ids: 90_000_000, last: 13_350_000_000, slots: 1_000_000 };
const SMALL: Size = Size { ids: 900_000, last: 133_500_000, slots: 10_000 };

/// The customer's memory in GiB.
const MEMORY: f64 = 4.0;

/// Ids that are made at a time.
const BATCH: usize = 1 << 16;

/// Ids in their order, added up so that another order gives another sum.
#[derive(Default, PartialEq, Debug)]
struct Seen {
    ids: u64,
    sum: u64,
}

impl Seen {
    fn take(&mut self, id: i64) {
        self.ids += 1;
        self.sum = self.sum.wrapping_add((id as u64).wrapping_mul(2 * self.ids + 1));
    }
}

struct Run<'a> {
    side: &'a str,
    size: &'a Size,
    whole: Duration,
}

impl Run<'_> {
    /// A step that the side has, or has not.
    fn step(&mut self, name: &str, took: Option<Duration>) {
        let told = took.map_or("-".to_string(), |took| short(took.as_secs_f64()));
        self.whole += took.unwrap_or_default();
        eprintln!("{}: {name}, {told} s", self.side);
        println!("{name}|{told}");
    }

    /// A line for each tenth of the ids.
    fn progress(&self, name: &str, before: u64, done: u64) {
        let (all, tenth) = (self.size.ids, self.size.ids / 10);
        if done / tenth > before / tenth {
            eprintln!("{}: {name}, {done} of {all} ids", self.side);
        }
    }

    /// All ids, some at a time, with the number of ids before them.
    fn batches(&mut self, name: &str, mut take: impl FnMut(u64, &[i64])) {
        let (mut walk, mut done, mut took) = (Walk::new(self.size.ids, self.size.last), 0, Duration::ZERO);
        while done < self.size.ids {
            let batch: Vec<i64> = walk.by_ref().take(BATCH).collect();
            took += waited(|| take(done, &batch)).0;
            self.progress(name, done, done + batch.len() as u64);
            done += batch.len() as u64;
        }
        self.step(name, Some(took));
    }

    fn check(&mut self, name: &str, check: impl FnOnce() -> Option<bool>) {
        let (took, yes) = waited(check);
        assert_ne!(yes, Some(false), "{name}");
        self.step(name, yes.map(|_| took));
    }

    /// Every partition's ids, which are all ids in their order.
    fn read(&mut self, name: &str, parts: &[Part], ranked: &mut impl Ranked) {
        let (mut seen, mut took) = (Seen::default(), Duration::ZERO);
        for &part in parts {
            let before = seen.ids;
            took += waited(|| ranked.read(part, |id| seen.take(id))).0;
            assert_eq!(seen.ids - before, part.2, "{name}: a partition has other members than its plan says");
            self.progress(name, before, seen.ids);
        }
        let mut wanted = Seen::default();
        Walk::new(self.size.ids, self.size.last).for_each(|id| wanted.take(id));
        assert_eq!(seen, wanted, "{name}");
        self.step(name, Some(took));
    }

    fn all<S: Open>(&mut self, set_up: impl FnOnce() -> S) {
        let (took, mut open) = waited(set_up);
        self.step("memory and set-up", Some(took));
        let mut new = 0;
        self.batches("load", |_, ids| ids.iter().for_each(|&id| new += u64::from(open.insert(id))));
        assert_eq!(new, self.size.ids, "an id was not new");
        self.check("full check, open", || open.check());
        let (took, mut ranked) = waited(|| open.into_ranked());
        self.step("ranking", Some(took));
        self.check("full check, ranked", || ranked.check());
        let (took, parts) = waited(|| ranked.plan(self.size.slots));
        self.step("plan", Some(took));
        self.read("every partition's ids", &parts, &mut ranked);
        let mut wrong = 0;
        let right = |first: u64, ids: &[i64]| ids.iter().zip(first..).for_each(|(&id, rank)| wrong += u64::from(ranked.rank(id) != rank));
        self.batches("the rank of every id", right);
        assert_eq!(wrong, 0, "ranks that are not the id's place");
        println!("in all|{:.1}\npartitions|{}", self.whole.as_secs_f64(), parts.len());
    }
}

/// Room for every chunk, first as a sparse one and then as a dense one.
fn sizes(last: u64) -> Sizes {
    let chunks = (last >> 25) + 1;
    Sizes { s: 25, m: 1024, d: 512, v: 16, r: chunks, p: chunks }
}

pub fn run(full: bool, side: &str) {
    let size = if full { &FULL } else { &SMALL };
    let (mut run, quiet) = (Run { side, size, whole: Duration::ZERO }, Quiet::begin());
    match side {
        "library" => run.all(|| Memory::new(sizes(size.last))),
        _ => run.all(IdSet::new),
    }
    println!("most memory|{:.2}\nmachine|{}\nquiet|{}", peak(), kind(), quiet.told());
    assert!(peak() < MEMORY, "{side}: {:.2} GiB", peak());
}
