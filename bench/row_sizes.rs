//! Rows apart: rising ids at the end of rows that are there, rows that lie in the cache, and short ones.
use crate::ids::{Random, in_chunks};
use crate::idset::IdSet;
use crate::memory::{DONE, Memory};
use crate::table::Table;
use crate::{Scale, rows, sum};

/// Rows that lie in the cache, ids of a short row, and calls of a turn at least.
const FEW: i64 = 8;
const SHORT: i64 = 8;
const CALLS: usize = 200_000;

/// The first id of each chunk is there before any time is taken.
fn ends(scale: &Scale, table: &mut Table) {
    let ids = in_chunks(scale.chunks, 1000);
    let (first, rest): (Vec<(usize, i64)>, Vec<(usize, i64)>) = ids.into_iter().enumerate().partition(|(at, _)| at % 1000 == 0);
    let rest: Vec<i64> = rest.into_iter().map(|(_, id)| id).collect();
    let z = rows::sizes(scale.chunks as u64);
    let mut x = Memory::new(z);
    for _ in 0..scale.rounds {
        assert_eq!(x.bp_set_up(z), DONE);
        let mut rust = IdSet::new();
        for &(_, id) in &first {
            assert!(x.bp_set_if_new(id).yes && rust.set_if_new(id));
        }
        let inserted = |ids: &[i64]| sum(ids, |id| u64::from(rust.set_if_new(id)));
        table.over("insert rising at the end of rows", &rest, |ids| sum(ids, |id| u64::from(x.bp_set_if_new(id).yes)), inserted);
    }
}

/// So many rows of so many ids each, asked for their members in random order.
fn gets(name: &str, chunks: i64, each: i64, rounds: u64, table: &mut Table) {
    let ids = in_chunks(chunks, each);
    let (mut x, mut rust, mut random) = (Memory::new(rows::sizes(chunks as u64)), IdSet::new(), Random::new(5));
    for &id in &ids {
        assert!(x.bp_set_if_new(id).yes && rust.set_if_new(id));
    }
    let mut asked = Vec::new();
    while asked.len() < 8 * CALLS {
        asked.extend(random.mixed(&ids));
    }
    for _ in 0..rounds {
        table.over(name, &asked, |ids| sum(ids, |id| u64::from(x.bp_get(id).yes)), |ids| sum(ids, |id| u64::from(rust.get(id))));
    }
}

pub fn run(scale: &Scale, table: &mut Table) {
    ends(scale, table);
    gets("`get` random in eight rows", FEW, 1000, scale.rounds, table);
    gets("`get` random in eight rows of eight", FEW, SHORT, scale.rounds, table);
    gets("`get` random in rows of eight", scale.chunks, SHORT, scale.rounds, table);
}
