//! A short answer of any kind. Where a call refuses, no field of its answer says anything else.
use crate::memory::{Done, Number, Optional, Truth};

/// Kind 0: done or none. 1: a value. 2: refused, with document 01's number.
#[derive(Clone, Copy, PartialEq, Eq, Debug)]
pub struct Answer {
    pub kind: u64,
    pub value: u64,
}

pub const DONE: Answer = Answer { kind: 0, value: 0 };
pub const NONE: Answer = DONE;

pub const fn value(n: u64) -> Answer {
    Answer { kind: 1, value: n }
}

pub const fn refused(n: u64) -> Answer {
    Answer { kind: 2, value: n }
}

/// What is said where nothing is refused; beside a refusal it has to be 0.
fn unless(refusal: u64, said: Answer, is_0: bool) -> Answer {
    if refusal == 0 {
        return said;
    }
    assert!(is_0, "a field beside the refusal {refusal} is not 0");
    refused(refusal)
}

impl From<Done> for Answer {
    fn from(a: Done) -> Answer {
        unless(a.refusal, DONE, true)
    }
}

impl From<Truth> for Answer {
    fn from(a: Truth) -> Answer {
        unless(a.refusal, value(a.yes.into()), !a.yes)
    }
}

impl From<Number> for Answer {
    fn from(a: Number) -> Answer {
        unless(a.refusal, value(a.value), a.value == 0)
    }
}

impl From<Optional> for Answer {
    fn from(a: Optional) -> Answer {
        assert!(a.has || a.value == 0, "a value where there is none");
        unless(a.refusal, if a.has { value(a.value) } else { NONE }, !a.has)
    }
}
