//! Iterators, ranks and plans against plain sets, over random sets at several sizes.
mod common;
use brothpillow::{NO_RANK, RangeList, Refusal, Set, Sizes};
use common::{Random, listed};
use std::collections::BTreeSet;
use std::ops::Bound;

const SIZES: [Sizes; 4] = [
    Sizes { s: 9, m: 4, d: 2, v: 3, r: 5, p: 4 },
    Sizes { s: 9, m: 1, d: 0, v: 5, r: 5, p: 5 },
    Sizes { s: 12, m: 64, d: 16, v: 16, r: 32, p: 16 },
    Sizes { s: 10, m: 1024, d: 4, v: 3, r: 4, p: 6 },
];

/// Random inserts, those that are accepted on both sides; what is new has to be the same.
fn filled(g: &mut Random, sizes: Sizes) -> (Set, BTreeSet<i64>) {
    let (mut set, mut plain) = (Set::new(sizes).unwrap(), BTreeSet::new());
    for _ in 0..g.below(3000) {
        let near = 1 << (2 + g.below(sizes.s - 1));
        let id = (g.below(sizes.d + sizes.v + 1) << sizes.s | g.below(near)) as i64 - 2;
        if let Ok(new) = set.set_if_new(id) {
            assert_eq!(new, id >= 0 && plain.insert(id));
        }
    }
    (set, plain)
}

fn each(mut test: impl FnMut(&mut Random, Set, BTreeSet<i64>)) {
    for (sizes, seed) in SIZES.into_iter().flat_map(|sizes| (0..12).map(move |seed| (sizes, seed))) {
        let mut g = Random::new(seed);
        let (set, plain) = filled(&mut g, sizes);
        assert!(set.check());
        test(&mut g, set, plain);
    }
}

/// An end of a range: a member or one beside it, or an end of i64.
fn end(g: &mut Random, plain: &BTreeSet<i64>) -> i64 {
    let members: Vec<i64> = plain.iter().copied().collect();
    match g.below(6) {
        0 => [i64::MIN, i64::MAX, -1, 0][g.below(4) as usize],
        _ if members.is_empty() => 7,
        _ => members[g.below(members.len() as u64) as usize] + g.below(3) as i64 - 1,
    }
}

#[test]
fn iter_lists_the_members() {
    each(|_, set, plain| {
        assert!(listed(&set).into_iter().eq(plain.iter().copied()));
        let mut ids = set.iter();
        assert_eq!(ids.by_ref().count(), plain.len());
        assert_eq!((ids.next(), ids.next(), ids.size_hint()), (None, None, (0, Some(0))));
        assert_eq!(set.len(), Ok(plain.len() as u64));
    });
}

#[test]
fn range_is_a_range_of_the_members() {
    each(|g, set, plain| {
        for _ in 0..40 {
            let ends = [end(g, &plain), end(g, &plain)];
            let bound =
                |g: &mut Random, id| [Bound::Included(id), Bound::Excluded(id), Bound::Unbounded][g.below(3) as usize];
            let range = (bound(g, ends[0]), bound(g, ends[1]));
            let ids = set.range(range).collect::<Result<Vec<i64>, Refusal>>().unwrap();
            let wanted: Vec<i64> =
                plain.iter().copied().filter(|id| std::ops::RangeBounds::contains(&range, id)).collect();
            assert_eq!(ids, wanted, "{range:?}");
            let any = ends[0] <= ends[1] && plain.range(ends[0]..=ends[1]).next().is_some();
            assert_eq!(set.any_in_range(ends[0], ends[1]), Ok(any));
            let mut part = set.range(range);
            part.by_ref().take(70).for_each(drop);
            let (least, most) = part.size_hint();
            let left = part.count();
            assert!(least <= left && most.is_none_or(|most| left <= most));
        }
    });
}

#[test]
fn ranks_are_places() {
    each(|g, mut set, plain| {
        set.into_ranked().unwrap();
        assert_eq!(set.total_count(), Ok(plain.len() as u64));
        for (id, place) in plain.iter().zip(0..) {
            assert_eq!((set.rank(*id), set.rank_if_set(*id)), (Ok(place), Ok(Some(place))));
        }
        for _ in 0..40 {
            let id = end(g, &plain);
            assert_eq!(set.rank(id), Ok(plain.range(..id).count() as u64));
            assert_eq!(set.rank_if_set(id).unwrap().is_some(), plain.contains(&id));
        }
        set.into_open().unwrap();
        assert!(set.check() && listed(&set).into_iter().eq(plain));
    });
}

/// Calls over a list are the single calls in turn, as many as the shorter list has.
#[test]
fn lists_are_single_calls() {
    each(|g, mut set, plain| {
        let ids: Vec<i64> = (0..g.below(90)).map(|_| end(g, &plain)).collect();
        let mut answers = vec![7; ids.len() + 2];
        set.get_all(&ids, &mut answers).unwrap();
        assert!(ids.iter().zip(&answers).all(|(&id, &answer)| set.get(id) == Ok(answer == 1)));
        assert_eq!(answers[ids.len()..], [7, 7]);
        let mut ranks = vec![7; ids.len() / 2];
        assert_eq!(set.rank_all(&ids, &mut ranks), Err(Refusal::IsOpen));
        assert!(ranks.iter().all(|&rank| rank == 7));
        let mut single = set.clone();
        let done = set.insert_all(&ids);
        let in_turn: Vec<_> = ids.iter().map(|&id| single.set_if_new(id)).take_while(Result::is_ok).collect();
        assert_eq!(done.taken, in_turn.len() as u64);
        assert_eq!(done.fresh, in_turn.iter().filter(|new| **new == Ok(true)).count() as u64);
        assert_eq!((done.refusal.is_none(), done.all().is_ok()), (in_turn.len() == ids.len(), done.refusal.is_none()));
        set.into_ranked().unwrap();
        set.rank_all(&ids, &mut ranks).unwrap();
        assert!(ids.iter().zip(&ranks).all(|(&id, &rank)| set.rank(id) == Ok(rank)));
        set.rank_if_set_all(&ids, &mut ranks).unwrap();
        assert!(
            ids.iter().zip(&ranks).all(|(&id, &rank)| set.rank_if_set(id) == Ok(Some(rank).filter(|&r| r != NO_RANK)))
        );
    });
}

/// The partitions cover every id once, have the members of their ranks, and no more than asked; the numbers say so too.
#[test]
fn partitions_cut_by_rank() {
    each(|g, mut set, plain| {
        set.into_ranked().unwrap();
        for slots in [0, 1, 2, 7, 64, 1 + g.below(1 + plain.len() as u64), u64::MAX] {
            let plan = set.plan(slots).unwrap();
            let (total, most) = (plain.len() as u64, slots.max(1));
            assert_eq!((plan.total(), plan.slots()), (total, most));
            assert_eq!(plan.partition_count(), total.div_ceil(most).max(1));
            assert_eq!(plan.partitions().len() as u64, plan.partition_count());
            assert_eq!(plan.boundaries().len() as u64, plan.partition_count() - 1);
            let (mut low, mut read) = (i64::MIN, Vec::new());
            for part in &plan {
                assert_eq!((part.ids.low, part.first), (low, read.len() as u64));
                assert_eq!(part.count, most.min(total - part.first));
                assert_eq!(plan.ids(part.number), Ok(part.ids));
                assert_eq!(plan.ranks(part.number), Ok(part.ranks()));
                let ids = set.range(part.ids).collect::<Result<Vec<i64>, Refusal>>().unwrap();
                assert_eq!(ids.len() as u64, part.count);
                assert!(ids.iter().all(|&id| part.ids.in_partition(id)));
                assert!(!part.ids.low.checked_sub(1).is_some_and(|below| part.ids.in_partition(below)));
                assert!(
                    part.ids.high.is_none_or(|high| !part.ids.in_partition(high) && part.ids.in_partition(high - 1))
                );
                assert_eq!(part.ids.high.is_none(), part.number + 1 == plan.partition_count());
                low = part.ids.high.unwrap_or(i64::MAX);
                read.extend(ids);
            }
            assert!(read.into_iter().eq(plain.iter().copied()));
        }
    });
}

#[test]
fn marks_are_range_tests() {
    each(|g, mut set, plain| {
        let mut list: RangeList = (0..20).map(|_| (end(g, &plain), end(g, &plain))).collect();
        set.mark_by_range(&mut list).unwrap();
        assert!(list.iter().all(|(low, high, mark)| set.any_in_range(low, high) == Ok(mark)));
        set.into_ranked().unwrap();
        let plan = set.plan(10).unwrap();
        for part in &plan {
            plan.mark_by_partition(part.number, &mut list).unwrap();
            assert!(list.iter().all(|(low, high, mark)| part.ids.range_meets(low, high) == mark));
        }
    });
}

#[test]
fn unions() {
    each(|g, mut set, mut plain| {
        let (mut other, there) = filled(g, Sizes { s: 9, m: 4, d: 0, v: 5, r: 5, p: 5 });
        match set.merge_from(&other) {
            Ok(()) => plain.extend(&there),
            Err(refusal) => assert!((6..=10).contains(&refusal.number())),
        }
        assert!(set.check() && listed(&set).into_iter().eq(plain.iter().copied()));
        assert!(listed(&other).into_iter().eq(there));
        if set.merge(&mut other).is_ok() {
            assert_eq!((other.is_empty(), other.has_any(), other.check()), (Ok(true), Ok(false), true));
        }
        assert!(listed(&set).into_iter().eq(plain));
    });
}

/// Sizes for so many members take any of them, however they are spread: one to a chunk, all in few, chunks one above m.
#[test]
fn sizes_for_members_are_enough() {
    let mut g = Random::new(1);
    for (members, highest) in
        [(0, 100), (1, i64::MAX), (50, 1 << 40), (700, 4_000_000), (3000, 2999), (3000, 60_000_000), (9, -1)]
    {
        let sizes = Sizes::for_members(members, highest).unwrap();
        let chunks = u64::try_from(highest).map_or(1, |id| (id >> sizes.s) + 1);
        for way in 0..4 {
            let mut set = Set::new(sizes).unwrap();
            let mut plain = BTreeSet::new();
            for n in 0..members {
                let id = match way {
                    0 => g.below((highest as u64).saturating_add(1)),
                    1 => n,
                    2 => ((n % chunks) << sizes.s) | (n / chunks),
                    _ => ((n / (sizes.m + 1)) << sizes.s) | (n % (sizes.m + 1)),
                };
                if let Some(id) = i64::try_from(id).ok().filter(|&id| id <= highest) {
                    assert_eq!(set.set_if_new(id), Ok(plain.insert(id)), "{members} {highest} {sizes:?} {way}");
                }
            }
            assert_eq!(set.len(), Ok(plain.len() as u64));
        }
    }
    assert_eq!(Sizes::for_members(70_000, i64::MAX), Err(Refusal::OutsideSizes));
}
