//! Every refusal: its number, its variant, its words, how it comes up, and that nothing changes by it.
mod common;
use brothpillow::{Memory, Owned, Plan, RangeList, Refusal, Set, Sizes, Slices, SlicesMut};
use common::{Random, TINY, copied, ranked, set_of, tiny};
use std::error::Error;

#[test]
fn every_number_has_its_variant() {
    for number in 1..=12 {
        let refusal = Refusal::from_number(number).expect("numbers 1 to 12");
        assert_eq!(refusal.number(), number);
        assert!(refusal.to_string().starts_with(&format!("refused with {number}: ")));
        assert_eq!(Refusal::ALL[number as usize - 1], refusal);
    }
    assert_eq!(Refusal::ALL.len(), 12);
    assert_eq!([0, 13, u64::MAX].map(Refusal::from_number), [None; 3]);
    let error: Box<dyn Error> = Refusal::NoRoom.into();
    assert_eq!(error.to_string(), "refused with 11: there is no room for so many boundaries");
}

/// Each refusal of a call, and that the set is as it was.
#[test]
fn each_comes_up_and_changes_nothing() {
    let changed = |mut set: Set, call: fn(&mut Set) -> Option<Refusal>| {
        let before = copied(&set);
        let refusal = call(&mut set);
        assert_eq!(copied(&set), before);
        refusal.map(Refusal::number)
    };
    let full = || set_of(TINY, (0..5).chain([512, 1024]));
    assert_eq!(changed(ranked(TINY, [0]), |x| x.set(1).err()), Some(4));
    assert_eq!(changed(ranked(TINY, [0]), |x| x.set_if_new(0).err()), Some(4));
    assert_eq!(changed(ranked(TINY, [0]), |x| x.set_prepared(0).err()), Some(4));
    assert_eq!(changed(ranked(TINY, [0]), |x| x.pre_allocate(0).err()), Some(4));
    assert_eq!(changed(ranked(TINY, [0]), |x| x.into_ranked().err()), Some(4));
    assert_eq!(changed(ranked(TINY, [0]), |x| x.merge_from(&tiny()).err()), Some(4));
    assert_eq!(changed(tiny(), |x| x.merge(&mut ranked(TINY, [0])).err()), Some(4));
    assert_eq!(changed(tiny(), |x| x.rank(0).err()), Some(5));
    assert_eq!(changed(tiny(), |x| x.rank_if_set(0).err()), Some(5));
    assert_eq!(changed(tiny(), |x| x.total_count().err()), Some(5));
    assert_eq!(changed(tiny(), |x| x.plan(1).err()), Some(5));
    assert_eq!(changed(tiny(), |x| x.into_open().err()), Some(5));
    assert_eq!(changed(full(), |x| x.set(1536).err()), Some(6));
    assert_eq!(changed(set_of(TINY, [0, 512]), |x| x.set(1024).err()), Some(7));
    assert_eq!(changed(full(), |x| x.pre_allocate(1023).err()), Some(8));
    assert_eq!(changed(tiny(), |x| x.set_prepared(0).err()), Some(9));
    let other = Sizes { m: 5, ..TINY };
    assert_eq!(changed(set_of(other, []), |x| x.merge_from(&tiny()).err()), Some(10));
    assert_eq!(changed(ranked(TINY, [0, 1, 2]), |x| x.plan_within(1, 1).err()), Some(11));
    assert_eq!(changed(ranked(TINY, [0]), |x| x.plan(1).ok()?.ids(1).err()), Some(12));
    assert_eq!(changed(ranked(TINY, [0]), |x| x.plan(1).ok()?.ranks(1).err()), Some(12));
    assert_eq!(
        changed(ranked(TINY, [0]), |x| x.plan(1).ok()?.mark_by_partition(1, &mut RangeList::new()).err()),
        Some(12)
    );
}

#[test]
fn set_up_refuses() {
    for sizes in [
        Sizes { s: 8, ..TINY },
        Sizes { s: 26, ..TINY },
        Sizes { m: 0, ..TINY },
        Sizes { m: 1025, ..TINY },
        Sizes { d: 262_145, ..TINY },
        Sizes { v: 65_537, ..TINY },
        Sizes { r: u64::MAX, ..TINY },
        Sizes { p: 65_537, ..TINY },
    ] {
        assert_eq!(sizes.check(), Err(Refusal::OutsideSizes));
        assert_eq!((sizes.lengths(), sizes.bytes()), (Err(Refusal::OutsideSizes), Err(Refusal::OutsideSizes)));
        assert_eq!(Set::new(sizes).err(), Some(Refusal::OutsideSizes));
        assert_eq!(Set::set_up(Owned::zeroed(TINY.lengths().unwrap()), sizes).err(), Some(Refusal::OutsideSizes));
    }
    let need = TINY.lengths().unwrap();
    let (mut pages, mut rows) = (vec![7; need.pages], vec![7; need.rows]);
    let (mut blocks, mut table) = (vec![7; need.blocks], vec![7; need.table - 1]);
    let lent = SlicesMut { pages: &mut pages, rows: &mut rows, blocks: &mut blocks, table: &mut table };
    assert_eq!(Set::set_up(lent, TINY).err(), Some(Refusal::TooShort));
    assert!(pages.iter().chain(&table).all(|&word| word == 7) && rows.iter().chain(&blocks).all(|&word| word == 7));
}

/// Memory that is no set: 3 as a refusal from every call that looks, and the full check says no.
#[test]
fn three_is_handed_on() {
    let set = Set::over(Slices { pages: &[], rows: &[], blocks: &[], table: &[] });
    let three = Refusal::NotLaidOut;
    assert!(!set.check());
    assert_eq!(
        (set.get(0), set.any_in_range(0, 1), set.is_empty(), set.has_any()),
        (Err(three), Err(three), Err(three), Err(three))
    );
    assert_eq!((set.len(), set.allocated_chunk_count(), set.rank(0)), (Err(three), Err(three), Err(three)));
    assert_eq!((set.chunk_of(0), set.rank_if_set(0)), (Err(three), Err(three)));
    assert_eq!(set.plan(1), Err(three));
    assert_eq!(set.iter().collect::<Vec<_>>(), [Err(three)]);
    assert_eq!(set.mark_by_range(&mut RangeList::new()), Err(three));
    assert_eq!(tiny().merge_from(&set), Err(three));
}

/// A call that changes a set, with an id.
type Call = fn(&mut Set<SlicesMut<'_>>, i64) -> Result<(), Refusal>;

/// On spoiled memory every call answers or refuses; none panics, and what is refused changes nothing.
#[test]
fn no_call_panics_on_spoiled_memory() {
    let mut g = Random::new(7);
    let sizes = Sizes { s: 9, m: 4, d: 2, v: 3, r: 5, p: 4 };
    for round in 0..2000 {
        let mut made = set_of(sizes, (0..g.below(12)).map(|n| (n * 211) as i64));
        if round % 2 == 0 {
            made.into_ranked().unwrap();
        }
        let (mut pages, mut rows, mut blocks, mut table) = copied(&made);
        for _ in 0..=g.below(3) {
            let (at, value) = (g.below(table.len() as u64) as usize, g.next() >> g.below(64));
            table[at] = value;
            let (page, row, block) = (g.below(32) as usize, g.below(20) as usize, g.below(4) as usize);
            (pages[page], rows[row], blocks[block]) = (g.next(), g.next() as u32, g.next() as u32);
        }
        let mut set =
            Set::over(SlicesMut { pages: &mut pages, rows: &mut rows, blocks: &mut blocks, table: &mut table });
        let id = (g.next() >> g.below(64)) as i64;
        let _ = (set.check(), set.get(id), set.any_in_range(0, id), set.chunk_of(id), set.len(), set.is_empty());
        let _ = (set.has_any(), set.allocated_chunk_count(), set.rank(id), set.rank_if_set(id), set.total_count());
        let _ = set.iter().take(3000).count() + set.range(..id).take(3000).count();
        let _ = set.plan_within(g.below(9), 100).map(|plan| plan.partitions().count());
        let _ = set.mark_by_range(&mut RangeList::from_iter([(0, id), (id, 0)]));
        let calls: [Call; 8] = [
            |x, id| x.set(id),
            |x, id| x.set_if_new(id).map(drop),
            |x, id| x.set_prepared(id).map(drop),
            |x, id| x.pre_allocate(id),
            |x, _| x.merge_from(&tiny()),
            |x, _| x.merge(&mut tiny()),
            |x, _| x.into_ranked(),
            |x, _| x.into_open(),
        ];
        for call in calls {
            let before = copied(&set);
            assert!(call(&mut set, id).is_ok() || copied(&set) == before);
        }
    }
}

/// Memory of a row that falls (docs/EXCEPTIONS.md): its records don't go on, and the iterator ends with a 3.
#[test]
fn iteration_ends_on_any_memory() {
    let set = set_of(Sizes { s: 9, m: 64, d: 1, v: 0, r: 1, p: 0 }, 1..65);
    let (pages, mut rows, blocks, table) = copied(&set);
    rows[63] = 0;
    let spoiled = Set::over(Slices { pages: &pages, rows: &rows, blocks: &blocks, table: &table });
    assert!(!spoiled.check());
    assert_eq!(spoiled.range(1..).collect::<Vec<_>>().last(), Some(&Err(Refusal::NotLaidOut)));
    let (pages, rows, blocks, mut table) = copied(&ranked(TINY, [0]));
    table[8] = u64::MAX / 2;
    let spoiled = Set::over(Slices { pages: &pages, rows: &rows, blocks: &blocks, table: &table });
    assert_eq!(spoiled.plan(1), Err(Refusal::NoRoom));
}

#[test]
fn plans_of_parts_are_judged() {
    assert_eq!(Plan::from_parts(0, 0, 1, vec![]), Err(Refusal::NotLaidOut));
    assert_eq!(Plan::from_parts(4, 2, 3, vec![6, 8]), Err(Refusal::NotLaidOut));
    assert_eq!(Plan::from_parts(4, 2, 2, vec![]), Err(Refusal::NotLaidOut));
    assert_eq!(Plan::from_parts(u64::MAX, 1, u64::MAX, vec![0; 9]), Err(Refusal::NotLaidOut));
    assert_eq!(Plan::from_parts(4, 2, 2, vec![6, 9]).map(|plan| plan.boundaries().to_vec()), Ok(vec![6]));
}

/// Sets may be sent to other threads and read by several, lent ones too.
#[test]
fn threads() {
    fn both<T: Send + Sync>(_: &T) {}
    let mut set = tiny();
    both(&set);
    both(&set.iter());
    both(&Set::over(set.slices()));
    let mut memory = set.clone().into_memory();
    both(&Set::over(&mut memory));
    set.set(3).unwrap();
    std::thread::scope(|threads| {
        let asked: Vec<_> = (0..2).map(|_| threads.spawn(|| set.get(3))).collect();
        assert!(asked.into_iter().all(|thread| thread.join().unwrap() == Ok(true)));
    });
    assert_eq!(format!("{:?}", memory.slices()), "Slices { pages: 8, rows: 8, blocks: 1, table: 26 }");
}
