//! Calls over a list of ids, beside the Rust's loop. What the library wrote is added up within its time.
use crate::memory::{DONE, Memory};

/// Lists of answers, lent to one call after the other.
pub struct Answers {
    bytes: Vec<u8>,
    numbers: Vec<u64>,
}

impl Answers {
    /// Room for so many, touched.
    pub fn new(n: usize) -> Answers {
        Answers { bytes: vec![1; n], numbers: vec![1; n] }
    }

    pub fn got(&mut self, x: &Memory, ids: &[i64]) -> u64 {
        let answers = &mut self.bytes[..ids.len()];
        assert_eq!(x.bp_get_all(ids, answers), DONE);
        answers.iter().map(|&n| u64::from(n)).sum()
    }

    pub fn ranks(&mut self, x: &Memory, ids: &[i64]) -> u64 {
        let answers = &mut self.numbers[..ids.len()];
        assert_eq!(x.bp_rank_all(ids, answers), DONE);
        answers.iter().fold(0, |all, &n| all.wrapping_add(n))
    }

    /// An id without a rank counts as 0, as in the loop beside it.
    pub fn ranks_if_set(&mut self, x: &Memory, ids: &[i64]) -> u64 {
        let answers = &mut self.numbers[..ids.len()];
        assert_eq!(x.bp_rank_if_set_all(ids, answers), DONE);
        answers.iter().filter(|&&n| n != u64::MAX).fold(0, |all, &n| all.wrapping_add(n))
    }
}

/// How many ids are new.
pub fn inserted(x: &mut Memory, ids: &[i64]) -> u64 {
    let a = x.bp_insert_all(ids);
    assert_eq!((a.taken, a.stop), (ids.len() as u64, 0));
    a.fresh
}
