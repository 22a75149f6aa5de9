//! Calls on sparse chunks of a thousand ids each.
use crate::ids::{Random, in_chunks};
use crate::idset::IdSet;
use crate::lists::{Answers, inserted};
use crate::memory::{DONE, Memory, Sizes};
use crate::table::Table;
use crate::{Scale, sum};

/// Room for so many chunks as sparse ones.
pub fn sizes(chunks: u64) -> Sizes {
    Sizes { s: 25, m: 1024, d: 262_144, v: 16, r: chunks, p: 0 }
}

pub fn run(scale: &Scale, table: &mut Table) {
    let rising = in_chunks(scale.chunks, 1000);
    let mixed = Random::new(4).mixed(&rising);
    let (z, asked) = (sizes(scale.chunks as u64), &mixed[..rising.len() / 5]);
    let (mut x, mut answers) = (Memory::new(z), Answers::new(asked.len()));
    for _ in 0..scale.rounds {
        assert_eq!(x.bp_set_up(z), DONE);
        let mut rust = IdSet::new();
        // all at once: what a row costs depends on how many there are
        let (library, other) = (|| sum(&rising, |id| u64::from(x.bp_set_if_new(id).yes)), || sum(&rising, |id| u64::from(rust.set_if_new(id))));
        table.both("insert rising into rows", rising.len(), library, other);
        table.over("`get` random in rows", asked, |ids| sum(ids, |id| u64::from(x.bp_get(id).yes)), |ids| sum(ids, |id| u64::from(rust.get(id))));
        table.over("`get` random in rows, a list", asked, |ids| answers.got(&x, ids), |ids| sum(ids, |id| u64::from(rust.get(id))));
        assert_eq!(x.bp_set_up(z), DONE);
        let mut rust = IdSet::new();
        let (library, other) = (|| inserted(&mut x, &rising), || sum(&rising, |id| u64::from(rust.set_if_new(id))));
        table.both("insert rising into rows, a list", rising.len(), library, other);
    }
}
