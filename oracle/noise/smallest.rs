//! The smallest input of each row of docs/EXCEPTIONS.md, and inputs that once were answered and now are refused: what calls answer on them, one
//! after the other.
use crate::answer::{Answer, DONE, NONE, refused, value};
use crate::bad::Bad;
use crate::call::{Call, Call::*, Said, listed};
use crate::lists::marked;
use crate::memory::{Memory, Sizes};
use crate::rows::{NAMES, Row};
use crate::second;
use crate::unions::{Join, Pair};

#[derive(Clone, Copy)]
enum Poke {
    Table(usize, u64),
    Rows(usize, u32),
    Pages(usize, u64),
    Blocks(usize, u32),
    /// Only so many words of the table are lent.
    Short(usize),
}

use Poke::*;

#[derive(Clone, Copy)]
enum Ask {
    Of(Call, Answer),
    /// Iteration from a start: all ids of a record with the mark set.
    List(i64, &'static [i64]),
    /// A record that goes on: its start, the next one.
    GoesOn(i64, i64),
    /// Planning with so many members to a partition: total and boundaries, or 3.
    Plan(u64, Option<(u64, &'static [i64])>),
    /// Marks of a range list by range test, or 3.
    Marks(&'static [(i64, i64)], Option<&'static [bool]>),
}

use Ask::{GoesOn, List, Marks, Of, Plan};

/// A row's name, or none where the first call is refused; s m D V R P; calls that make the set; pokes; calls and their answers.
type Case = (&'static str, [u64; 6], &'static [Call], &'static [Poke], &'static [Ask]);

const NO: Answer = value(0);
const YES: Answer = value(1);
const TWO: Answer = value(2);
const THREE: Answer = value(3);
const BAD: Answer = refused(3);

const TINY: [u64; 6] = [9, 4, 2, 1, 2, 1];

/// Inserts of 1 to 64.
const SIXTY_FOUR: [Call; 64] = {
    let mut sets = [Set(1); 64];
    let mut k = 0;
    while k < 64 {
        sets[k] = Set(k as i64 + 1);
        k += 1;
    }
    sets
};

const CASES: [Case; 42] = [
    (
        "order", [9, 1, 0, 3, 3, 0], &[Set(512), Set(1024)], &[Table(16, 2), Table(19, 1)],
        &[Of(Get(512), NO), Of(Any(0, 512), NO), List(0, &[1024, 512]), Of(SetIfNew(512), YES), Of(Chunks, THREE)],
    ),
    ("order", [9, 1, 1, 1, 1, 0], &[Set(512)], &[Table(18, 0)], &[Of(Any(0, 0), YES), List(0, &[0])]),
    // records that lead back to each other
    (
        "order", [9, 1, 2, 1, 0, 2], &[PreAllocate(1023)],
        &[Table(7, 1), Table(16, 0), Table(21, 1 << 28), Pages(0, u64::MAX), Pages(8, u64::MAX)], &[GoesOn(576, 64), GoesOn(64, 576)],
    ),
    ("empty entry", [9, 1, 0, 1, 1, 0], &[], &[Table(7, 1)], &[Of(Get(0), NO), Of(Any(0, 0), NO), List(0, &[]), Of(Chunks, NO), Of(SetIfNew(0), refused(6))]),
    ("empty entry", [9, 1, 0, 2, 1, 0], &[], &[Table(7, 1)], &[Of(SetIfNew(0), YES), Of(Get(0), YES), Of(Check, YES)]),
    (
        "no length", [9, 1, 1, 0, 1, 0], &[Set(0)], &[Table(16, 1)],
        &[Of(Get(0), NO), Of(Any(0, 0), NO), List(0, &[]), Of(Chunks, YES), Of(IsEmpty, YES), Of(SetIfNew(0), YES), Of(Check, YES)],
    ),
    ("shared", [9, 1, 2, 0, 1, 0], &[Set(0)], &[Table(18, 2)], &[Of(Get(512), YES), Of(Len, TWO), Of(Any(512, 512), YES), List(0, &[0, 512])]),
    ("shared", [9, 1, 2, 0, 0, 1], &[PreAllocate(0)], &[Table(18, 1 << 28)], &[Of(SetPrepared(512), YES), Of(Get(0), YES)]),
    ("owner", [9, 1, 1, 0, 1, 0], &[Set(0)], &[Table(18, 0)], &[Of(Get(0), YES), Of(Any(0, 0), YES), List(0, &[0])]),
    ("words", [9, 1, 1, 0, 0, 0], &[], &[Table(16, 2)], &[Of(Chunks, YES), Of(HasAny, YES), Of(Len, BAD)]),
    (
        "falling", [9, 3, 1, 0, 1, 0], &[Set(1), Set(2), Set(3)], &[Rows(0, 9)],
        &[
            Of(Get(2), NO), Of(Any(2, 3), NO), Marks(&[(2, 3), (2, 9)], Some(&[false, true])), List(2, &[9, 2, 3]), List(4, &[]), Of(Len, THREE),
            Of(IntoRanked, DONE), Of(Rank(2), NO), Of(RankIfSet(2), NONE),
        ],
    ),
    ("falling", [9, 3, 1, 0, 1, 0], &[Set(1), Set(2)], &[Rows(0, 9)], &[Of(SetIfNew(2), YES), Of(Len, THREE)]),
    ("far", [9, 1, 1, 0, 1, 1], &[Set(5)], &[Rows(0, 517)], &[List(6, &[5]), Of(Len, YES), Of(SetIfNew(6), YES), Of(Get(5), YES)]),
    ("far", [9, 64, 1, 0, 1, 0], &SIXTY_FOUR, &[Rows(63, 512)], &[GoesOn(1, 1)]),
    ("falling", [9, 64, 1, 0, 1, 0], &SIXTY_FOUR, &[Rows(63, 0)], &[GoesOn(1, 1)]),
    ("far", [9, 1, 1, 0, 1, 1], &[Set(5)], &[Rows(0, 517)], &[Of(PreAllocate(0), DONE), Of(Get(5), YES)]),
    ("named free", [9, 1, 2, 0, 1, 0], &[Set(0)], &[Table(9, 0), Table(20, 0)], &[Of(SetIfNew(513), YES), Of(Get(0), NO), Of(Get(1), YES)]),
    ("free row", [9, 2, 1, 0, 1, 0], &[], &[Rows(1, 7)], &[Of(SetIfNew(0), YES), Of(Len, YES), Of(Check, NO)]),
    ("free page", [9, 1, 1, 0, 1, 1], &[Set(0)], &[Pages(0, 2)], &[Of(SetIfNew(5), YES), Of(Get(1), YES)]),
    ("free page", [9, 1, 1, 0, 0, 1], &[], &[Pages(0, 1)], &[Of(PreAllocate(0), DONE), Of(Get(0), YES)]),
    ("passed over", [9, 1, 1, 0, 2, 0], &[], &[Table(18, 1)], &[Of(SetIfNew(0), YES), Of(Check, NO)]),
    ("passed over", [9, 1, 1, 0, 2, 0], &[], &[Table(9, 1)], &[Of(SetIfNew(0), YES), Of(Check, NO)]),
    ("", [9, 1, 1, 0, 1, 0], &[], &[Table(18, 1)], &[Of(SetIfNew(0), refused(7))]),
    ("", [9, 1, 1, 0, 1, 0], &[], &[Table(9, 1)], &[Of(SetIfNew(0), refused(7))]),
    ("prefix", TINY, &[Set(0), Set(5), IntoRanked], &[Table(17, 2)], &[Of(Rank(5), THREE), Plan(1, Some((2, &[0])))]),
    ("total", [9, 1, 0, 0, 0, 0], &[IntoRanked], &[Table(8, 1)], &[Of(TotalCount, YES), Plan(1, Some((1, &[])))]),
    ("blocks", [9, 1, 1, 0, 0, 1], &[PreAllocate(0), IntoRanked], &[Blocks(0, 1)], &[Of(Rank(0), YES)]),
    ("written over", [9, 1, 0, 0, 0, 0], &[], &[Table(8, 1)], &[Of(IntoRanked, DONE), Of(TotalCount, NO), Of(Check, YES)]),
    ("written over", [9, 1, 0, 0, 0, 0], &[IntoRanked], &[Table(8, 1)], &[Of(IntoOpen, DONE), Of(Check, YES)]),
    (
        "negative", [9, 1, 1, 0, 0, 0], &[], &[Table(16, 1)],
        &[Of(Get(-1), NO), Of(Any(-5, -1), NO), Of(Any(1, 0), NO), Of(Get(0), BAD), Of(Any(-5, 0), BAD), Of(Iter(-1), BAD), Marks(&[(1, 0)], None)],
    ),
    ("negative", [9, 1, 0, 0, 0, 0], &[], &[Table(8, 1)], &[Marks(&[(-5, -1), (1, 0)], Some(&[false, false]))]),
    ("sizes", [9, 1, 0, 0, 0, 0], &[], &[Short(1)], &[Of(ChunkOf(5), NO), Of(Rank(5), refused(5)), Of(Get(5), BAD), Of(Any(1, 0), BAD), Of(Iter(0), BAD)]),
    (
        "elsewhere", [9, 1, 1, 0, 0, 0], &[], &[Table(11, 1)],
        &[Of(Get(0), NO), Of(Any(0, 0), NO), List(0, &[]), Marks(&[(0, 0)], None), Of(SetIfNew(0), refused(7))],
    ),
    ("elsewhere", ONE, &[Set(0)], &[Table(8, 1)], &[Marks(&[(0, 0), (1, 1)], Some(&[true, false]))]),
    // a hit, or a full record and a hit past it, before a part that is refused
    (
        "elsewhere", [9, 1, 2, 0, 1, 0], &[Set(0)], &[Table(18, 1 << 28)],
        &[Of(Any(0, 512), YES), Of(Any(1, 512), BAD), Of(Iter(0), BAD), Marks(&[(0, 512)], None)],
    ),
    ("elsewhere", [9, 1, 2, 0, 0, 1], &[PreAllocate(0)], &[Pages(0, u64::MAX), Pages(1, 1), Table(18, 1)], &[GoesOn(0, 64), Of(Iter(1), BAD)]),
    // a chunk id that no id has
    ("elsewhere", [9, 1, 0, 1, 1, 0], &[Set(0)], &[Table(16, 1 << 54)], &[Of(Any(0, i64::MAX), NO), Of(Iter(0), BAD)]),
    // refused since short calls hold slots against R and P, entries against V, and the walk tests every rule of the table
    ("", [9, 2, 0, 0, 1, 0], &[], &[Table(7, 1), Table(17, 2)], &[Of(SetIfNew(5), BAD)]),
    ("", [9, 2, 0, 0, 3, 0], &[], &[Table(7, 1), Table(17, 2)], &[Of(SetIfNew(5), BAD)]),
    ("", [9, 1, 1, 0, 0, 1], &[], &[Table(18, 7)], &[Of(PreAllocate(0), BAD)]),
    ("", TINY, &[Set(0), Set(5), IntoRanked], &[Table(17, 1 << 63)], &[Of(Rank(5), BAD), Plan(1, None), Marks(&[(5, 5)], None)]),
    ("", [9, 1, 1, 0, 0, 0], &[], &[Table(16, 2), Rows(0, 5)], &[Of(Get(5), BAD)]),
];

/// A set of a union: s m D V R P, calls that make it, pokes.
type Half = ([u64; 6], &'static [Call], &'static [Poke]);

/// A row's name, or none where it is refused; destination and source; the union and its answer; then calls on either and their answers.
type Union = (&'static str, [Half; 2], (Join, Answer), [&'static [Ask]; 2]);

const ONE: [u64; 6] = [9, 1, 1, 0, 1, 0];
const PAGED: [u64; 6] = [9, 1, 1, 0, 1, 1];
const ROW: [u64; 6] = [9, 2, 1, 0, 1, 0];
const PAGE: [u64; 6] = [9, 1, 1, 0, 0, 1];
const NOTHING: [u64; 6] = [9, 1, 0, 0, 0, 0];

const UNIONS: [Union; 11] = [
    // three heads for two members
    (
        "falling", [([9, 2, 1, 0, 1, 1], &[Set(2)], &[]), (ROW, &[Set(1), Set(2)], &[Rows(0, 9)])], (Join::MergeFrom, DONE),
        [&[Of(Len, TWO), Of(SetPrepared(9), NO), Of(Check, YES)], &[List(2, &[9, 2])]],
    ),
    ("falling", [(ROW, &[], &[]), (ROW, &[Set(1), Set(2)], &[Rows(0, 9)])], (Join::Merge, DONE), [&[List(2, &[9, 2]), Of(Check, NO)], &[Of(Check, YES)]]),
    ("", [(ROW, &[Set(2)], &[]), (ROW, &[Set(1), Set(2)], &[Rows(0, 9)])], (Join::MergeFrom, refused(8)), [&[], &[]]),
    ("far", [(PAGED, &[Set(6)], &[]), (ONE, &[Set(5)], &[Rows(0, 517)])], (Join::MergeFrom, DONE), [&[Of(Get(5), YES), Of(Check, YES)], &[]]),
    ("free row", [(ROW, &[], &[Rows(1, 7)]), (ROW, &[Set(0)], &[])], (Join::MergeFrom, DONE), [&[Of(Len, YES), Of(Check, NO)], &[]]),
    ("free page", [(PAGED, &[Set(0)], &[Pages(0, 2)]), (ONE, &[Set(5)], &[])], (Join::MergeFrom, DONE), [&[Of(Get(1), YES), Of(Check, YES)], &[]]),
    // a page that is copied leaves nothing of what was there
    ("elsewhere", [(PAGE, &[], &[Pages(0, 1)]), (PAGE, &[PreAllocate(0)], &[])], (Join::MergeFrom, DONE), [&[Of(Get(0), NO), Of(Check, YES)], &[]]),
    ("written over", [(NOTHING, &[], &[]), (NOTHING, &[], &[Table(8, 1)])], (Join::Merge, DONE), [&[Of(Check, YES)], &[Of(Check, YES)]]),
    ("elsewhere", [(NOTHING, &[], &[]), (NOTHING, &[], &[Table(8, 1)])], (Join::MergeFrom, DONE), [&[Of(Check, YES)], &[Of(Check, NO)]]),
    // the walks come before 4 and 10
    ("", [(NOTHING, &[IntoRanked], &[]), (NOTHING, &[], &[Table(9, 1)])], (Join::Merge, BAD), [&[], &[]]),
    ("", [(NOTHING, &[], &[Table(9, 1)]), ([9, 2, 0, 0, 0, 0], &[], &[])], (Join::MergeFrom, BAD), [&[], &[]]),
];

fn poke(x: &mut Memory, p: Poke) {
    match p {
        Table(k, w) => x.table[k] = w,
        Rows(k, o) => x.rows[k] = o,
        Pages(k, w) => x.pages[k] = w,
        Blocks(k, n) => x.blocks[k] = n,
        Short(n) => x.table.truncate(n),
    }
}

/// What was said, but of a plan; a mark is what the range test says.
fn ask(x: &mut Memory, ask: Ask, of: &str) -> Vec<(Call, Said)> {
    let mut same = |call: Call, wanted: Said| {
        let said = call.make(x);
        assert_eq!(said, wanted, "smallest input of {of}: {call:?}");
        vec![(call, said)]
    };
    match ask {
        Of(call, wanted) => same(call, if wanted.kind == 2 { call.refused(wanted.value) } else { wanted.into() }),
        List(start, ids) => same(Iter(start), listed(ids, start)),
        GoesOn(start, next) => {
            let said = Iter(start).make(x);
            assert!(matches!(&said, Said::Listed(r) if r.count == 64 && !r.end && r.next == next), "smallest input of {of}: a record that goes on is {said:?}");
            vec![(Iter(start), said)]
        }
        Marks(ends, wanted) => {
            let told = marked(ends, [0; 3], |lows, highs, marks| x.bp_mark_ends_by_range(lows, highs, marks)).map(|(a, marks)| (a.into(), marks));
            let marks = wanted.unwrap_or_default();
            assert_eq!(told, Ok((wanted.map_or(refused(3), |_| DONE), marks.to_vec())), "smallest input of {of}: the range list {ends:?}");
            ends.iter().zip(marks).map(|(&(low, high), &mark)| (Any(low, high), value(mark.into()).into())).collect()
        }
        Plan(slots, wanted) => {
            let mut bounds = [0; 4];
            let a = x.plan(slots, &mut bounds);
            let told = (a.refusal == 0).then(|| (a.total, &bounds[..a.partitions as usize - 1]));
            assert!(told == wanted && matches!(a.refusal, 0 | 3), "smallest input of {of}: planning with {slots} answers {told:?}");
            vec![]
        }
    }
}

fn made(name: &str, ([s, m, d, v, r, p], made, pokes): Half) -> Memory {
    let mut x = Memory::new(Sizes { s, m, d, v, r, p });
    made.iter().for_each(|call| assert!(call.make(&mut x).refusal().is_none(), "smallest input of {name}: {call:?} is refused"));
    pokes.iter().for_each(|&p| poke(&mut x, p));
    x
}

fn union((name, halves, (join, answer), asks): Union) {
    let [mut x, mut y] = halves.map(|half| made(name, half));
    let of = if name.is_empty() { "a refusal" } else { name };
    let (before, source) = (x.clone(), y.clone());
    assert_eq!(join.make(&mut x, &mut y), answer, "smallest input of {of}: {join:?}");
    let pair = Pair::new(&before, &source);
    let row = pair.after(join).map(|after| pair.row(join, &after).name());
    assert_eq!(row.unwrap_or(""), name, "smallest input: {join:?}");
    for (x, asks) in [x, y].iter_mut().zip(asks) {
        asks.iter().for_each(|&a| _ = ask(x, a, of));
    }
}

/// Every case, and every row has one; answers fall under it as long as memory is as it was poked.
pub fn run() {
    for (name, sizes, calls, pokes, asks) in CASES {
        let mut x = made(name, (sizes, calls, pokes));
        let broken = second::read(&x).expect_err("memory of a smallest input follows the layout");
        let (poked, bad, of) = (x.clone(), Bad::new(&x, broken), if name.is_empty() { "a refusal" } else { name });
        for &a in asks {
            let as_poked = x == poked;
            for (call, said) in ask(&mut x, a, of).into_iter().filter(|(_, said)| as_poked && said.refusal().is_none()) {
                assert_eq!(bad.row_of(&poked, call, &said).map(Row::name), Ok(name), "smallest input: {call:?}");
            }
        }
    }
    UNIONS.into_iter().for_each(union);
    assert!(NAMES.iter().all(|name| CASES.iter().any(|case| case.0 == *name)), "a row without a smallest input");
    let list = std::fs::read_to_string("docs/EXCEPTIONS.md").expect("docs/EXCEPTIONS.md");
    let rows = list.lines().filter_map(|line| line.strip_prefix("| ")?.split(" | ").next()).skip(1);
    assert!(rows.eq(NAMES), "the rows of docs/EXCEPTIONS.md are others");
}
