//! Which calls are made on a piece of memory: all of them, with ids and sizes at edges and near what memory holds.
use crate::call::Call;
use crate::memory::{Memory, Sizes};
use crate::poke::Random;

/// An id at an edge, or one that memory has something about.
fn id(g: &mut Random, x: &Memory, z: Sizes) -> i64 {
    let s = x.table.first().copied().filter(|s| (9..=25).contains(s)).unwrap_or(z.s);
    let element = |g: &mut Random, t: &[u64]| if t.is_empty() { 0 } else { g.pick(t) };
    let listed = if x.rows.is_empty() { 0 } else { g.pick(&x.rows).into() };
    let chunk = match g.below(12) {
        0 => return g.pick(&[-1, i64::MIN, i64::MIN + 1, -512]),
        1 => return i64::MAX - g.below(3) as i64 * g.below(1 << s) as i64,
        2 => x.table.get(2).copied().unwrap_or(z.d).wrapping_sub(g.below(2)),
        3..=5 => element(g, &x.table).wrapping_sub(g.below(2)),
        _ => g.below(z.d + z.v + 2),
    };
    let offset = match g.below(6) {
        0 => 0,
        1 => (1 << s) - 1,
        2 => g.below(1 << s),
        3 => listed + 1,
        _ => listed,
    };
    (chunk << s | offset % (1 << s)) as i64 & i64::MAX
}

/// Low and high end of a range: the same id twice, two near each other or anywhere, ends that take in all on one side, and the wrong way round.
pub fn ends(g: &mut Random, x: &Memory, z: Sizes) -> (i64, i64) {
    let (a, b) = (id(g, x, z), id(g, x, z));
    match g.below(8) {
        0 => (a, a),
        1 => (a, a.saturating_add(g.below(3 << z.s) as i64)),
        2 => (i64::MIN, a),
        3 => (a, i64::MAX),
        4 => (a.max(b), a.min(b)),
        _ => (a.min(b), a.max(b)),
    }
}

fn range(g: &mut Random, x: &Memory, z: Sizes) -> Call {
    let (min, max) = ends(g, x, z);
    Call::Any(min, max)
}

/// Sizes for set-up: those of memory, small ones, and some with a number outside the table of sizes or too large for memory.
fn sizes(g: &mut Random, z: Sizes) -> Sizes {
    let mut z = if g.one_in(2) { z } else { Sizes { s: 9 + g.below(2), m: 1 + g.below(3), d: g.below(4), v: g.below(4), r: g.below(4), p: g.below(2) } };
    let far = g.pick(&[u64::MAX, 1 << 63, 1 << 32]);
    match g.below(24) {
        0 => z.s = g.pick(&[0, 8, 26, 63, 64, far]),
        1 => z.m = g.pick(&[0, 1025, far]),
        2 => z.d = g.pick(&[262_144, 262_145, far]),
        3 => z.v = g.pick(&[65_536, 65_537, far]),
        4 => z.r = g.pick(&[65_536, 65_537, far]),
        5 => z.p = g.pick(&[65_536, 65_537, far]),
        6 => z.s = g.pick(&[10, 12, 25]),
        7 => z.m = 1024,
        _ => (),
    }
    z
}

/// Sizes for the other set of a union: other capacities, now and then another s or m. Where a page is large there is none.
pub fn beside(g: &mut Random, z: Sizes) -> Sizes {
    let (mut s, mut m) = (z.s, z.m);
    match g.below(24) {
        0 => s = g.pick(&[z.s - 1, z.s + 1]).clamp(9, 25),
        1 => m = g.pick(&[z.m - 1, z.m + 1]).clamp(1, 1024),
        _ => (),
    }
    let p = if s > 12 { 0 } else { g.below(z.p + 3) };
    Sizes { s, m, d: g.below(z.d + 3), v: g.below(z.v + 3), r: g.below(z.r + 3), p }
}

pub fn every_call(g: &mut Random, x: &Memory, z: Sizes) -> Vec<Call> {
    let mut all = Call::ALONE.to_vec();
    for _ in 0..4 {
        let id = id(g, x, z);
        all.extend(Call::OF_AN_ID.map(|call| call(id)));
    }
    let start = id(g, x, z);
    all.extend([range(g, x, z), range(g, x, z), Call::Iter(g.pick(&[0, i64::MIN, start, start]))]);
    all.extend([Call::SetUp(sizes(g, z)), Call::SetUp(sizes(g, z))]);
    // in any order, since what a call made is sometimes kept for the next
    (1..all.len()).for_each(|k| all.swap(k, g.below(k as u64 + 1) as usize));
    all
}
