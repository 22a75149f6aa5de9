//! Plan records, which come from the caller: what `ids`, `ranks` and the range list by partition answer on any of them, by document 01.
use crate::answer::{DONE, refused};
use crate::call::Record;
use crate::lists::marked;
use crate::marks::more;
use crate::planning::{ids, mark_ends_by_partition, ranks};
use crate::poke::Random;

/// Members to a partition: those that give a few partitions, and the ends.
pub fn slots(g: &mut Random, total: u64) -> u64 {
    match g.below(6) {
        0 => g.below(4),
        1 => g.pick(&[0, 1, u64::MAX, 1 << 63]),
        2 => total.wrapping_add(g.below(3)).wrapping_sub(1),
        _ => total / (1 + g.below(8)) + g.below(2),
    }
}

fn judge(p: Record, k: u64, fits: bool) -> Result<(), u64> {
    match () {
        _ if p.slots == 0 || p != Record::new(p.total, p.slots) || !fits => Err(3),
        _ if k >= p.partitions => Err(12),
        _ => Ok(()),
    }
}

/// Low end, high end.
fn wanted_ids(p: Record, bounds: &[i64], k: u64) -> Result<(i64, Option<i64>), u64> {
    judge(p, k, bounds.len() as u64 >= p.partitions.wrapping_sub(1))?;
    let low = if k == 0 { i64::MIN } else { bounds[k as usize - 1] };
    Ok((low, (k + 1 < p.partitions).then(|| bounds[k as usize])))
}

fn wanted_ranks(p: Record, k: u64) -> Result<(u64, u64), u64> {
    judge(p, k, true)?;
    let first = k * p.slots;
    Ok((first, p.slots.min(p.total - first)))
}

fn record(g: &mut Random) -> Record {
    let total = g.pick(&[0, 1, 2, 7, 100, u64::MAX, u64::MAX - 1, 1 << 63]);
    let mut p = Record::new(total, slots(g, total));
    match g.below(8) {
        0 => p.slots = g.pick(&[0, 1, p.slots ^ 1]),
        1 => p.partitions = g.pick(&[0, 1, p.partitions.wrapping_add(1), p.partitions.wrapping_sub(1), u64::MAX]),
        2 => p.total = p.total.wrapping_add(g.below(3)).wrapping_sub(1),
        _ => (),
    }
    p
}

/// An end of a range: of i64, a boundary or one beside it, or any.
fn end(g: &mut Random, bounds: &[i64]) -> i64 {
    match g.below(4) {
        0 => g.pick(&[i64::MIN, i64::MAX]),
        1 => g.next() as i64,
        _ if bounds.is_empty() => g.below(9) as i64,
        _ => g.pick(bounds).saturating_add(g.below(3) as i64 - 1),
    }
}

/// The marks of up to three ranges by this partition, or what is wrong with them.
fn list(g: &mut Random, p: Record, bounds: &[i64], k: u64) -> Result<(), String> {
    let ends: Vec<(i64, i64)> = (0..g.below(4)).map(|_| (end(g, bounds), end(g, bounds))).collect();
    let meets = |(low, high): (i64, Option<i64>)| ends.iter().map(|&(min, max)| max >= low && high.is_none_or(|h| min < h)).collect();
    let wanted = wanted_ids(p, bounds, k).map_or_else(|no| (refused(no), vec![]), |interval| (DONE, meets(interval)));
    let told = marked(&ends, more(g), |lows, highs, marks| mark_ends_by_partition(lows, highs, marks, p, bounds, k)).map(|(a, marks)| (a.into(), marks));
    if told.as_ref() == Ok(&wanted) { Ok(()) } else { Err(format!("the range list {ends:?} by partition {k} of {p:?} is told {told:?} and not {wanted:?}")) }
}

/// One partition of one record: the refusal number or 0, or what was asked where the library answers otherwise.
pub fn partition(g: &mut Random) -> Result<u64, String> {
    let p = record(g);
    let k = g.pick(&[0, 1, 2, p.partitions.wrapping_sub(1), p.partitions, p.partitions.wrapping_add(1), u64::MAX]);
    let bounds: Vec<i64> = (0..g.below(9)).map(|_| g.next() as i64).collect();
    list(g, p, &bounds, k)?;
    let (a, b) = (ids(p, &bounds, k), ranks(p, k));
    let wanted = match wanted_ids(p, &bounds, k) {
        Ok((low, None)) => (0, false, low, 0),
        Ok((low, Some(high))) => (0, true, low, high),
        Err(no) => (no, false, 0, 0),
    };
    let ranked = wanted_ranks(p, k).map_or_else(|no| (no, 0, 0), |(first, count)| (0, first, count));
    let same = (a.refusal, a.has_high, a.low, a.high) == wanted && (b.refusal, b.first, b.count) == ranked;
    if same { Ok(a.refusal) } else { Err(format!("partition {k} of {p:?} with {} boundaries is not {wanted:?}, {ranked:?}", bounds.len())) }
}
