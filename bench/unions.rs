//! Union of two halves, every other id in each: of dense chunks, and of sparse ones that stay so.
use crate::ids::{Walk, in_chunks};
use crate::idset::IdSet;
use crate::memory::{DONE, Memory, Sizes};
use crate::table::Table;
use crate::{Scale, dense, rows, sum};

/// A set on both sides, which may have chunks already, and gets every other id from one on.
fn half(ids: &[i64], first: usize, x: &mut Memory, rust: &mut IdSet) {
    for &id in ids.iter().skip(first).step_by(2) {
        assert_eq!(x.bp_set_if_new(id).yes, rust.set_if_new(id));
    }
}

fn union(name: &str, z: Sizes, ids: &[i64], rounds: u64, table: &mut Table, fresh: impl Fn(&mut Memory) -> IdSet) {
    let (mut x, mut from) = (Memory::new(z), Memory::new(z));
    for _ in 0..rounds {
        let (mut rust, mut rust_from) = (fresh(&mut x), fresh(&mut from));
        half(ids, 0, &mut x, &mut rust);
        half(ids, 1, &mut from, &mut rust_from);
        let merged = || {
            rust.merge_from(&rust_from);
            0
        };
        table.both(name, 1, || x.bp_merge_from(&from).refusal, merged);
        assert_eq!(sum(ids, |id| u64::from(x.bp_get(id).yes)), ids.len() as u64);
        assert_eq!(x.bp_len().value, rust.len());
    }
}

/// Four sets are there at once, so the dense ones go up to a quarter of the last id.
pub fn run(scale: &Scale, table: &mut Table) {
    let last = (scale.last / 4) as i64;
    let ids: Vec<i64> = Walk::new(scale.ids / 4, last as u64).collect();
    union("union of two halves, dense", dense::sizes(last), &ids, scale.rounds, table, |x| dense::prepared(x, last));
    let z = rows::sizes(scale.chunks as u64);
    let empty = |x: &mut Memory| {
        assert_eq!(x.bp_set_up(z), DONE);
        IdSet::new()
    };
    union("union of two halves, rows", z, &in_chunks(scale.chunks, 1000), scale.rounds, table, empty);
}
