//! Document 01's worked cases, a to m, at its tiny sizes.
mod common;
use brothpillow::{Interval, Refusal, Set, Sizes, file_bounded_max_id, slots_for_budget};
use common::{TINY, ranked, set_of, tiny};

fn new(set: &mut Set, ids: &[i64]) -> Vec<Result<bool, Refusal>> {
    ids.iter().map(|&id| set.set_if_new(id)).collect()
}

/// Sparse and dense chunks: of the tiny sizes a chunk is dense where a prepared insert of a member is accepted.
fn dense(set: &mut Set, member: i64) -> bool {
    set.set_prepared(member) == Ok(false)
}

fn case_a() -> Set {
    let mut set = tiny();
    assert_eq!(new(&mut set, &[-1, 0, 1, 2, 3, 3]), [false, true, true, true, true, false].map(Ok));
    assert!(!dense(&mut set, 0));
    assert_eq!(set.set_if_new(4), Ok(true));
    assert!(dense(&mut set, 0));
    set
}

#[test]
fn a() {
    case_a();
}

#[test]
fn b() {
    let mut set = set_of(TINY, (0..4).chain(512..516));
    assert_eq!(new(&mut set, &[516, 4, 1024]), [Ok(true), Err(Refusal::PagesFull), Ok(true)]);
    // the freed row is the second one
    assert_eq!(set.slices().rows, [0, 1, 2, 3, 0, 0, 0, 0]);
    assert!(set.check());
}

#[test]
fn c() {
    assert_eq!(new(&mut tiny(), &[0, 512, 1024]), [Ok(true), Ok(true), Err(Refusal::RowsFull)]);
}

#[test]
fn d() {
    let mut set = case_a();
    assert_eq!(new(&mut set, &[512, 1024, 1536]), [Ok(true), Ok(true), Err(Refusal::OverflowFull)]);
}

#[test]
fn e() {
    let set = ranked(TINY, [0, 5, 7, 9]);
    assert_eq!([-3, 0, 1, 9, 10, i64::MAX].map(|id| set.rank(id)), [0, 0, 1, 3, 4, 4].map(Ok));
    assert_eq!([7, 8].map(|id| set.rank_if_set(id)), [Ok(Some(2)), Ok(None)]);
}

#[test]
fn f() {
    let set = ranked(TINY, [0, 5, 7, 9]);
    let cut = |slots| set.plan(slots).expect("a ranked set");
    assert_eq!(cut(2).boundaries(), [6]);
    assert_eq!(cut(3).boundaries(), [8]);
    assert_eq!(cut(3).partitions().map(|part| part.count).collect::<Vec<_>>(), [3, 1]);
    assert_eq!(cut(0).boundaries(), [1, 6, 8]);
    assert_eq!(cut(4).boundaries(), []);
}

#[test]
fn g() {
    let plan = ranked(TINY, []).plan(5).expect("a ranked set");
    let part = plan.partition(0).expect("one partition");
    assert_eq!((plan.partition_count(), part.ids), (1, Interval { low: i64::MIN, high: None }));
    assert_eq!((part.first, part.count), (0, 0));
}

#[test]
fn h() {
    let plan = ranked(TINY, [0, i64::MAX]).plan(1).expect("a ranked set");
    assert_eq!(plan.boundaries(), [1]);
}

#[test]
fn i() {
    let set = set_of(TINY, [0]);
    let any = |(min, max)| set.any_in_range(min, max);
    assert_eq!([(i64::MIN, i64::MAX), (-5, 0), (1, 0), (-5, -1)].map(any), [true, true, false, false].map(Ok));
}

#[test]
fn j() {
    let mut set = tiny();
    assert_eq!(set.pre_allocate(511), Ok(()));
    assert_eq!((set.has_any(), set.len()), (Ok(true), Ok(0)));
    assert_eq!(
        [3, 3, 512, -1].map(|id| set.set_prepared(id)),
        [Ok(true), Ok(false), Err(Refusal::NotPrepared), Err(Refusal::NotPrepared)]
    );
    assert_eq!(tiny().pre_allocate(512), Err(Refusal::PagesFull));
    assert_eq!(tiny().pre_allocate(1536), Err(Refusal::OverflowFull));
}

#[test]
fn k() {
    for (other, wanted) in [([2, 3], false), ([3, 4], true)] {
        let mut set = set_of(TINY, [0, 1, 2]);
        assert_eq!(set.merge_from(&set_of(TINY, other)), Ok(()));
        assert_eq!(dense(&mut set, 0), wanted);
    }
}

#[test]
fn l() {
    let mut set = set_of(TINY, [0, 1, 2, 3, 512]);
    assert_eq!(set.merge_from(&set_of(TINY, [4, 1024])), Ok(()));
    assert_eq!([0, 512, 1024].map(|member| dense(&mut set, member)), [true, false, false]);
    assert_eq!((set.allocated_chunk_count(), set.check()), (Ok(3), true));
}

#[test]
fn m() {
    assert_eq!([0, 8, 33, u64::MAX].map(slots_for_budget), [1, 1, 4, 279_496_122_328_932_600]);
    assert_eq!(file_bounded_max_id(7, 2, 3), 6);
    assert_eq!(file_bounded_max_id(5, u64::MAX, 8), 5);
}

#[test]
fn counts_and_chunks() {
    let set = set_of(Sizes { v: 0, ..TINY }, [0, 600]);
    assert_eq!((set.len(), set.is_empty(), set.allocated_chunk_count()), (Ok(2), Ok(false), Ok(2)));
    assert_eq!([-1, 600].map(|id| set.chunk_of(id)), [Ok(None), Ok(Some(1))]);
    assert_eq!((tiny().is_empty(), tiny().has_any()), (Ok(true), Ok(false)));
}
