//! What a new chunk costs as chunks grow: one id in each, and the last 256 chunks up to each mark taken for themselves.
use crate::ids::in_chunks;
use crate::idset::IdSet;
use crate::memory::{DONE, Memory};
use crate::table::{Table, in_turn};
use crate::{Scale, rows, sum};
use std::time::Duration;

const LAST: usize = 256;
const MARKS: [(usize, &str); 4] =
    [(256, "a new chunk, up to 256"), (1_000, "a new chunk, up to 1,000"), (8_000, "a new chunk, up to 8,000"), (65_536, "a new chunk, up to 65,536")];
const ALL: &str = "one id in each of 65,536 chunks";

fn inserted(ids: &[i64], x: &mut Memory, rust: &mut IdSet) -> (Duration, Duration) {
    in_turn("a new chunk", || sum(ids, |id| u64::from(x.bp_set_if_new(id).yes)), || sum(ids, |id| u64::from(rust.set_if_new(id))))
}

fn round(ids: &[i64], x: &mut Memory, table: &mut Table) {
    let (mut rust, mut done, mut whole) = (IdSet::new(), 0, [Duration::ZERO; 2]);
    for (mark, name) in MARKS.into_iter().filter(|mark| mark.0 <= ids.len()) {
        let before = inserted(&ids[done..mark - LAST], x, &mut rust);
        let at = inserted(&ids[mark - LAST..mark], x, &mut rust);
        table.keep(name, LAST, at.0, Some(at.1));
        whole = [whole[0] + before.0 + at.0, whole[1] + before.1 + at.1];
        done = mark;
    }
    if done == 65_536 {
        table.keep(ALL, 1, whole[0], Some(whole[1]));
    }
}

pub fn run(scale: &Scale, table: &mut Table) {
    let (z, ids) = (rows::sizes(scale.growth), in_chunks(scale.growth as i64, 1));
    let mut x = Memory::new(z);
    for _ in 0..scale.rounds {
        assert_eq!(x.bp_set_up(z), DONE);
        round(&ids, &mut x, table);
    }
}
