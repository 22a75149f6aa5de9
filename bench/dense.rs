//! Calls on dense chunks: every chunk up to the last id is prepared, and its memory touched, before any time is taken.
use crate::ids::{Random, Walk};
use crate::idset::{IdSet, RankedIdSet};
use crate::lists::{Answers, inserted};
use crate::memory::{DONE, Memory, Sizes};
use crate::table::Table;
use crate::{Scale, again, each, locations, sum};
use std::hint::black_box;

const PARTITIONS: usize = 200;

/// Calls on the whole set that may be short.
const AGAIN: usize = 64;

/// Ids in 4 KiB of a bit map.
const TOUCH: usize = 1 << 15;

/// Room for every chunk up to this id as a dense one.
pub fn sizes(last: i64) -> Sizes {
    Sizes { s: 25, m: 1024, d: 262_144, v: 16, r: 16, p: (last as u64 >> 25) + 1 }
}

/// The library's set emptied and prepared, and the Rust's like it.
pub fn prepared(x: &mut Memory, last: i64) -> IdSet {
    assert_eq!(x.bp_set_up(sizes(last)), DONE);
    assert_eq!(x.bp_pre_allocate(last), DONE);
    let mut rust = IdSet::new();
    rust.pre_allocate(last);
    for id in (0..=last).step_by(TOUCH) {
        assert_eq!(x.bp_set_if_new(id).yes, rust.set_if_new(id));
    }
    rust
}

fn inserts(name: &str, ids: &[i64], x: &mut Memory, rust: &mut IdSet, table: &mut Table) {
    table.over(name, ids, |ids| sum(ids, |id| u64::from(x.bp_set_if_new(id).yes)), |ids| sum(ids, |id| u64::from(rust.set_if_new(id))));
}

/// Calls on an open set of these ids.
fn open(rising: &[i64], asked: &[i64], x: &mut Memory, rust: &mut IdSet, table: &mut Table) {
    let set = |ids: &[i64]| {
        ids.iter().for_each(|&id| rust.set(id));
        0
    };
    table.over("`set` rising, dense, of members", rising, |ids| sum(ids, |id| x.bp_set(id).refusal), set);
    let chunks = || black_box(&*rust).allocated_chunk_count() as u64;
    table.both("`allocated_chunk_count`", AGAIN, || again(AGAIN, || x.bp_allocated_chunk_count().value), || again(AGAIN, chunks));
    let empty = || u64::from(black_box(&*rust).is_empty());
    table.both("`is_empty`", AGAIN, || again(AGAIN, || u64::from(x.bp_is_empty().yes)), || again(AGAIN, empty));
    table.both("`len`", 1, || x.bp_len().value, || rust.len());
    let any = |ids: &[i64]| sum(ids, |id| u64::from(rust.any_in_range(id + 1, id + 10)));
    table.over("`any_in_range` random, ten ids", asked, |ids| sum(ids, |id| u64::from(x.bp_any_in_range(id + 1, id + 10).yes)), any);
    table.both("iteration, an id", rising.len(), || listed(x), || rust.iter().fold(0, |all, id| all ^ id as u64));
    table.alone("full check, open", || x.bp_check());
}

fn listed(x: &mut Memory) -> u64 {
    let mut all = 0;
    each(x, 0, |id| all ^= id as u64);
    all
}

/// Calls on a ranked one.
fn ranked(asked: &[i64], x: &mut Memory, rust: &RankedIdSet, answers: &mut Answers, table: &mut Table) {
    table.over("`get` random", asked, |ids| sum(ids, |id| u64::from(x.bp_get(id).yes)), |ids| sum(ids, |id| u64::from(rust.get(id))));
    table.over("`rank` random", asked, |ids| sum(ids, |id| x.bp_rank(id).value), |ids| sum(ids, |id| rust.rank(id)));
    let rank_if_set = |ids: &[i64]| sum(ids, |id| rust.rank_if_set(id).unwrap_or(0));
    table.over("`rank_if_set` random", asked, |ids| sum(ids, |id| x.bp_rank_if_set(id).value), rank_if_set);
    table.over("`get` random, a list", asked, |ids| answers.got(x, ids), |ids| sum(ids, |id| u64::from(rust.get(id))));
    table.over("`rank` random, a list", asked, |ids| answers.ranks(x, ids), |ids| sum(ids, |id| rust.rank(id)));
    table.over("`rank_if_set` random, a list", asked, |ids| answers.ranks_if_set(x, ids), rank_if_set);
    let slots = rust.total_count().div_ceil(PARTITIONS as u64);
    table.both("a boundary of a plan of 200", PARTITIONS - 1, || planned(x, slots), || sum(&locations::planned(rust, slots).0, |id| id as u64));
    table.alone("full check, ranked", || x.bp_check());
}

fn planned(x: &Memory, slots: u64) -> u64 {
    let mut bounds = [0; PARTITIONS];
    let plan = x.plan(slots, &mut bounds);
    sum(&bounds[..plan.partitions as usize - 1], |id| id as u64)
}

/// The Rust's ranking takes its set, so each round begins from nothing.
pub fn run(scale: &Scale, table: &mut Table) {
    let rising: Vec<i64> = Walk::new(scale.ids, scale.last).collect();
    let mixed = Random::new(3).mixed(&rising);
    let (last, asked) = (scale.last as i64, &mixed[..rising.len() / 5]);
    let (mut x, mut answers) = (Memory::new(sizes(last)), Answers::new(asked.len()));
    for _ in 0..scale.rounds {
        let mut rust = prepared(&mut x, last);
        inserts("insert rising, dense", &rising, &mut x, &mut rust, table);
        drop(rust);
        let mut rust = prepared(&mut x, last);
        table.over("insert rising, dense, a list", &rising, |ids| inserted(&mut x, ids), |ids| sum(ids, |id| u64::from(rust.set_if_new(id))));
        drop(rust);
        let mut rust = prepared(&mut x, last);
        inserts("insert random, dense", &mixed, &mut x, &mut rust, table);
        open(&rising, asked, &mut x, &mut rust, table);
        let mut by_rank = None;
        table.both("ranking", 1, || x.bp_into_ranked().refusal, || u64::from(by_rank.insert(rust.into_ranked()).get(-1)));
        ranked(asked, &mut x, &by_rank.expect("a ranked set"), &mut answers, table);
    }
}
