//! The library beside the Rust that it was carried over from, in one process and on the same ids.
//! `calls full|small PICTURE`: the table of calls; `counted CALL SIDE`: a loop for callgrind; `afternoon full|small SIDE`: the customer's run on one side.
mod afternoon;
#[allow(dead_code)]
mod call;
#[allow(dead_code)]
mod calls;
mod clock;
#[allow(dead_code, clippy::all)]
mod coord_pack;
mod dense;
mod growth;
mod ids;
#[allow(dead_code, clippy::all)]
mod idset;
mod instructions;
mod lists;
#[allow(dead_code, clippy::all)]
mod locations;
mod machine;
mod memory;
mod picture;
#[allow(dead_code)]
mod planning;
mod row_sizes;
mod rows;
mod sides;
mod table;
mod unions;

use machine::Quiet;
use memory::Memory;
use std::hint::black_box;
use std::time::Instant;
use table::Table;

/// Stand-ins for what the Rust's files lean on.
mod error {
    pub trait Leaf {}
}
mod coord_fmt {
    pub fn e7_to_deg(e7: f64) -> f64 {
        e7 / 1e7
    }
}
#[derive(Debug)]
pub struct Error;
impl Error {
    pub fn internal(_: &str) -> Error {
        Error
    }
}
pub type Result<T> = std::result::Result<T, Error>;

/// How much of everything.
pub struct Scale {
    /// Clustered ids, and the last of them.
    ids: u64,
    last: u64,
    /// Sparse chunks, of a thousand ids each.
    chunks: i64,
    /// New chunks, one id in each.
    growth: u64,
    rounds: u64,
}

const FULL: Scale = Scale { ids: 20_000_000, last: 13_300_000_000, chunks: 20_000, growth: 65_536, rounds: 5 };
const SMALL: Scale = Scale { ids: 200_000, last: 133_000_000, chunks: 200, growth: 8_000, rounds: 2 };

/// What a call answers to each of these ids, added up.
pub fn sum(ids: &[i64], call: impl FnMut(i64) -> u64) -> u64 {
    ids.iter().copied().map(call).fold(0, u64::wrapping_add)
}

/// A call that is too short to be timed for itself, made so many times.
pub fn again(calls: usize, mut call: impl FnMut() -> u64) -> u64 {
    (0..calls).map(|_| black_box(call())).fold(0, u64::wrapping_add)
}

/// The ids from a start on, record by record.
pub fn each(x: &mut Memory, mut start: i64, mut take: impl FnMut(i64)) {
    loop {
        let record = x.bp_iter_from(start);
        assert_eq!(record.refusal, 0);
        record.ids[..record.count as usize].iter().for_each(|&id| take(id));
        if record.end {
            return;
        }
        start = record.next;
    }
}

fn calls(scale: &Scale, picture: &str) {
    let (mut table, quiet, begin) = (Table::new(), Quiet::begin(), Instant::now());
    dense::run(scale, &mut table);
    rows::run(scale, &mut table);
    row_sizes::run(scale, &mut table);
    unions::run(scale, &mut table);
    growth::run(scale, &mut table);
    println!("On {}. The machine was {}.", machine::kind(), quiet.told());
    println!("{} rounds in {:.0} s, at most {:.2} GiB.\n", scale.rounds, begin.elapsed().as_secs_f64(), machine::peak());
    print!("{}", table.text());
    std::fs::write(picture, picture::drawn(&table)).expect("the picture can be written");
}

fn main() {
    let words: Vec<String> = std::env::args().skip(1).collect();
    let words: Vec<&str> = words.iter().map(String::as_str).collect();
    match words[..] {
        ["calls", "full", picture] => calls(&FULL, picture),
        ["calls", "small", picture] => calls(&SMALL, picture),
        ["counted", call, side] => instructions::run(call, side),
        ["afternoon", scale, side] => afternoon::run(scale == "full", side),
        _ => panic!("no such words: {words:?}"),
    }
}
