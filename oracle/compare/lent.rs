//! A list of ids and one of answers as they are lent to the library, of lengths that may differ.
use crate::memory::{DONE, Done};
use std::iter;

/// Answers that are not lent.
const KEPT: usize = 3;

/// What a call says to these ids, ids and answers having so many more elements and one of them none, and the answers that it wrote;
/// or what it did wrong. Answers begin as `neither`, which no call writes.
pub fn answered<T: Copy + PartialEq>(
    ids: &[i64], more: [usize; 2], neither: T, call: impl FnOnce(&[i64], &mut [T]) -> Done,
) -> Result<(Done, Vec<T>), &'static str> {
    let (count, [more_ids, more_answers]) = (ids.len(), more);
    let lent: Vec<i64> = ids.iter().copied().chain(iter::repeat_n(i64::MAX, more_ids)).collect();
    let mut answers = vec![neither; count + more_answers + KEPT];
    let a = call(&lent, &mut answers[..count + more_answers]);
    let written = if a == DONE { count } else { 0 };
    match () {
        _ if answers[written..].iter().any(|&answer| answer != neither) => Err("an answer past the shorter list, or of a refused call, was written"),
        _ if answers[..written].contains(&neither) => Err("an answer was not written"),
        _ => Ok((a, answers[..written].to_vec())),
    }
}
