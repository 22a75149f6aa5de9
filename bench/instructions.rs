//! Loops for callgrind, on one side: one call over 4,096 offsets of a chunk, or one call over the list of them.
//! Counted is all that happens inside `counted_loop`, or inside the library's entry alone.
use crate::idset::IdSet;
use crate::lists::{Answers, inserted};
use crate::memory::{DONE, Memory, Sizes};
use crate::sum;

const OFFSETS: i64 = 4096;
const IN_A_ROW: i64 = 1000;
/// Ids in a record of iteration.
const RECORD: i64 = 64;
const SIZES: Sizes = Sizes { s: 25, m: 1024, d: 4, v: 0, r: 1, p: 1 };

#[inline(never)]
fn counted_loop(ids: &[i64], call: impl FnMut(i64) -> u64) -> u64 {
    sum(ids, call)
}

/// What is in the set before the call, whether its chunk is dense, whether the set is ranked, and the ids that are asked for.
struct Asked {
    members: Vec<i64>,
    dense: bool,
    ranked: bool,
    ids: Vec<i64>,
}

fn asked(call: &str) -> Asked {
    let all = || (0..OFFSETS).collect::<Vec<i64>>();
    let every = |n: i64| (0..OFFSETS).step_by(n as usize).collect();
    let (members, dense, ranked, ids) = match call {
        "insert" | "insert-all" => (vec![], true, false, all().repeat(2)),
        "row" => (vec![], false, false, (0..IN_A_ROW).collect()),
        "get" | "get-all" => (every(2), true, false, all()),
        "get-row" | "get-all-row" => ((0..IN_A_ROW).collect(), false, false, (0..IN_A_ROW).collect()),
        "any" => (every(2), true, false, all()),
        // a member more, so that no mark of the end is looked for in the rest of the chunk
        "iterate" => ((0..=OFFSETS).collect(), true, false, every(RECORD)),
        "rank" | "rank-if-set" | "rank-all" | "rank-if-set-all" => (all(), true, true, all()),
        _ => panic!("no such call: {call}"),
    };
    Asked { members, dense, ranked, ids }
}

fn library(call: &str, asked: &Asked) -> u64 {
    let (mut x, ids) = (Memory::new(SIZES), &asked.ids);
    assert!(!asked.dense || x.bp_pre_allocate(0) == DONE);
    asked.members.iter().for_each(|&id| assert_eq!(x.bp_set(id), DONE));
    assert!(!asked.ranked || x.bp_into_ranked() == DONE);
    let mut answers = Answers::new(ids.len());
    let list = [0];
    match call {
        "insert-all" => counted_loop(&list, |_| inserted(&mut x, ids)),
        "get-all" | "get-all-row" => counted_loop(&list, |_| answers.got(&x, ids)),
        "rank-all" => counted_loop(&list, |_| answers.ranks(&x, ids)),
        "rank-if-set-all" => counted_loop(&list, |_| answers.ranks_if_set(&x, ids)),
        "insert" | "row" => counted_loop(ids, |id| u64::from(x.bp_set_if_new(id).yes)),
        "get" | "get-row" => counted_loop(ids, |id| u64::from(x.bp_get(id).yes)),
        "any" => counted_loop(ids, |id| u64::from(x.bp_any_in_range(id, id + 9).yes)),
        "rank" => counted_loop(ids, |id| x.bp_rank(id).value),
        "rank-if-set" => counted_loop(ids, |id| x.bp_rank_if_set(id).value),
        _ => counted_loop(ids, |start| sum(&x.bp_iter_from(start).ids, |id| id as u64)),
    }
}

fn rust(call: &str, asked: &Asked) -> u64 {
    let (mut set, ids) = (IdSet::new(), &asked.ids);
    if asked.dense {
        set.pre_allocate(0);
    }
    asked.members.iter().for_each(|&id| set.set(id));
    if asked.ranked {
        let ranked = set.into_ranked();
        return match call {
            "rank" | "rank-all" => counted_loop(ids, |id| ranked.rank(id)),
            _ => counted_loop(ids, |id| ranked.rank_if_set(id).unwrap_or(0)),
        };
    }
    match call {
        "insert" | "insert-all" | "row" => counted_loop(ids, |id| u64::from(set.set_if_new(id))),
        "get" | "get-row" | "get-all" | "get-all-row" => counted_loop(ids, |id| u64::from(set.get(id))),
        "any" => counted_loop(ids, |id| u64::from(set.any_in_range(id, id + 9))),
        _ => counted_loop(&[OFFSETS], |n| set.iter().take(n as usize).fold(0, |all, id| all + id as u64)),
    }
}

/// Says how many calls were made, of iteration how many ids came.
pub fn run(call: &str, side: &str) {
    let asked = asked(call);
    let sum = if side == "library" { library(call, &asked) } else { rust(call, &asked) };
    let calls = if call == "iterate" { OFFSETS as usize } else { asked.ids.len() };
    println!("{calls} calls, in all {sum}");
}
