//! No library at all: the calls and their answers are written down, for the fixed list that the gate replays.
use crate::call::{Call, Said, Sizes};
use crate::piped::POOLS;
use crate::script::Way;
use std::fs::{File, OpenOptions};
use std::io::Write;

pub struct Listed {
    calls: File,
    answers: File,
}

impl Listed {
    /// Adds to the two files.
    pub fn new(calls: &str, answers: &str) -> Listed {
        let open = |name: &str| OpenOptions::new().append(true).create(true).open(name).expect("a file to write");
        Listed { calls: open(calls), answers: open(answers) }
    }
}

impl Way for Listed {
    fn lends(&self, _: Sizes) -> [usize; 4] {
        POOLS
    }

    /// Sequences follow each other in one run: only the first meets pools of zeros.
    fn begin(&mut self) -> bool {
        self.calls.metadata().expect("a file").len() == 0
    }

    fn call(&mut self, k: usize, call: &Call, wanted: &Said) {
        writeln!(self.calls, "{}", call.line(k)).expect("a line written");
        writeln!(self.answers, "{wanted}").expect("a line written");
    }

    fn end(&mut self) {}
}
