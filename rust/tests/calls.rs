//! The worked lines of docs/CALLS.md, run: each of the page's lines has to be here, in its order, and to give what it says.
mod common;
use brothpillow::{RangeList, Refusal, Set, Sizes, Slices, file_bounded_max_id, slots_for_budget};
use common::{TINY, ranked, set_of, tiny};

const PAGE: &str = include_str!("../../docs/CALLS.md");

/// Each line with what it gives, on the sets that the page names; each begins anew.
macro_rules! worked {
    ($x:ident $y:ident $z:ident $plan:ident $list:ident $bytes:ident $ranks:ident: $($line:expr;)*) => {
        [$({
            #[allow(unused_variables, unused_mut)]
            let (mut $x, mut $y, mut $z) = (set_of(TINY, MEMBERS), ranked(TINY, MEMBERS), tiny());
            #[allow(unused_variables)]
            let $plan = $y.plan(3).expect("a ranked set");
            #[allow(unused_variables, unused_mut)]
            let mut $list = RangeList::from_iter([(0, 4), (6, 8)]);
            #[allow(unused_variables, unused_mut)]
            let (mut $bytes, mut $ranks) = ([7u8; 3], [7u64; 3]);
            (stringify!($line).to_string(), format!("{:?}", $line))
        }),*]
    };
}

const MEMBERS: [i64; 4] = [0, 5, 7, 9];

/// The page's lines: "Worked: `LINE` gives `ANSWER`."
fn stated() -> Vec<(String, String)> {
    let lines = PAGE.lines().filter_map(|line| line.strip_prefix("Worked: `")?.strip_suffix("`."));
    lines.filter_map(|line| line.split_once("` gives `")).map(|(line, gives)| (line.into(), gives.into())).collect()
}

#[test]
fn every_worked_line() {
    let ran = worked! { x y z plan list bytes ranks:
        Set::new(Sizes { s: 8, ..TINY }).err();
        (x.check(), Set::over(Slices { table: &[], ..x.slices() }).check());
        (x.set_if_new(3), x.set_if_new(3), x.set_if_new(-1), x.len());
        (z.set(0), z.set(512), z.set(1024));
        (z.pre_allocate(511), z.set_prepared(3), z.set_prepared(3), z.set_prepared(512));
        (z.pre_allocate(511), z.has_any(), z.len(), z.pre_allocate(512));
        (z.set(4), z.merge_from(&x), z.len(), x.len());
        (z.merge(&mut x), z.len(), x.is_empty(), x.merge(&mut y));
        (x.get(5), x.get(6), x.get(-5));
        (x.any_in_range(6, 8), x.any_in_range(1, 4), x.any_in_range(-9, 0), x.any_in_range(1, 0));
        (x.chunk_of(511), x.chunk_of(512), x.chunk_of(-1));
        (x.len(), x.is_empty(), z.is_empty());
        (z.has_any(), x.has_any(), x.allocated_chunk_count());
        x.range(1..9).collect::<Result<Vec<i64>, Refusal>>();
        (x.into_ranked(), x.set(1), x.into_open(), x.set(1));
        (y.rank(9), y.rank(10), y.rank(-3), y.rank_if_set(7), y.rank_if_set(8), y.total_count());
        (x.rank(9), x.total_count());
        (x.get_all(&[5, 6], &mut bytes), bytes);
        (y.rank_all(&[9, 10], &mut ranks), y.rank_if_set_all(&[9], &mut ranks[1..]), ranks);
        z.insert_all(&[0, 0, 512, 1024, 1]);
        (y.plan(3).map(|p| p.boundaries().to_vec()), y.plan_within(1, 2).err(), x.plan(3).err());
        (plan.ids(0), plan.ids(1), plan.ids(2));
        (plan.ranks(0), plan.ranks(1));
        plan.ids(1).map(|i| (i.in_partition(8), i.in_partition(7), i.range_meets(0, 8), i.range_meets(0, 7)));
        (x.mark_by_range(&mut list), list.marked().collect::<Vec<_>>());
        (plan.mark_by_partition(1, &mut list), list.marked().collect::<Vec<_>>());
        (slots_for_budget(0), slots_for_budget(33), file_bounded_max_id(1_000, 20, 8));
        (TINY.bytes(), TINY.lengths().map(|l| (l.pages, l.rows, l.blocks, l.table)));
        Sizes::for_members(90_000_000, 13_350_000_000);
        Sizes::for_members(1_000_000, 13_350_000_000).and_then(Sizes::bytes);
        Sizes { s: 25, m: 1024, d: 398, v: 0, r: 398, p: 398 }.bytes();
        [398, 199].map(|p| Sizes { s: 25, m: 1024, d: 398, v: 0, r: 398, p }.bytes());
        Sizes::for_members(u64::MAX, 32_000_000_000).and_then(Sizes::bytes);
    };
    let stated = stated();
    for ((line, gave), (stated, gives)) in ran.iter().zip(&stated) {
        // a long line may be broken here, or where it is made text
        let [line, stated] = [line, stated].map(|text| text.split_whitespace().collect::<String>());
        assert_eq!((line, gave), (stated, gives));
    }
    assert_eq!(ran.len(), stated.len());
    assert_eq!(PAGE.matches("Worked: ").count(), ran.len());
}

/// The refusal table: every number with its variant, in order.
#[test]
fn every_refusal_has_its_row() {
    let rows: Vec<&str> = PAGE.lines().filter(|line| line.starts_with("| ") && line.contains("` | ")).collect();
    let wanted = Refusal::ALL.map(|refusal| format!("| {} | `{refusal:?}` | ", refusal.number()));
    let found = |want: &String| rows.iter().filter(|row| row.starts_with(want.as_str())).count();
    assert_eq!(wanted.each_ref().map(found), [1; 12]);
}
