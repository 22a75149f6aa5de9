//! A range list as it is lent to the library: lows, highs and marks, of lengths that may differ, the marks neither 0 nor 1.
use crate::memory::Done;
use std::iter;

/// A mark that no call writes.
const NEITHER: u8 = 7;
/// Marks that are not lent.
const KEPT: usize = 3;

/// What a call says to these ranges, each list having so many more elements and one of them none, and the marks that it wrote; or what it did wrong.
pub fn marked(
    ends: &[(i64, i64)], more: [usize; 3], call: impl FnOnce(&[i64], &[i64], &mut [u8]) -> Done,
) -> Result<(Done, Vec<bool>), &'static str> {
    let (count, [more_lows, more_highs, more_marks]) = (ends.len(), more);
    let long = |more: usize| ends.iter().copied().chain(iter::repeat_n((i64::MIN, i64::MAX), more));
    let lows: Vec<i64> = long(more_lows).map(|range| range.0).collect();
    let highs: Vec<i64> = long(more_highs).map(|range| range.1).collect();
    let mut marks = vec![NEITHER; count + more_marks + KEPT];
    let before = (lows.clone(), highs.clone());
    let a = call(&lows, &highs, &mut marks[..count + more_marks]);
    let written = if a.refusal == 0 { count } else { 0 };
    match () {
        _ if (lows, highs) != before => Err("an end of a range changed"),
        _ if marks[written..].iter().any(|&mark| mark != NEITHER) => Err("a mark past the shortest list, or of a refused call, was written"),
        _ if marks[..written].iter().any(|&mark| mark > 1) => Err("a mark is neither 0 nor 1"),
        _ => Ok((a, marks[..written].iter().map(|&mark| mark == 1).collect())),
    }
}
