//! The library through the program `replay` on a pipe: whole sequences are sent and their answers read back.
use crate::call::{Call, Said, Sizes};
use crate::script::Way;
use std::io::{BufRead, BufReader, Write};
use std::process::{Child, ChildStdout, Command, Stdio};
use std::thread;

/// The pools of each of its two sets.
pub const POOLS: [usize; 4] = [8192, 4096, 1024, 1024];

/// Lines after which a run of the program ends with the sequence.
const RUN: usize = 50_000;

/// What is to come back for a line.
enum Wanted {
    Answer(String),
    /// Any dump of this set, for the next one to be held against.
    Dump(usize),
    /// The last dump of this set, but for so many boundaries that a plan wrote.
    Same(usize, usize),
}

pub struct Piped {
    program: Vec<String>,
    lines: Vec<String>,
    wanted: Vec<Wanted>,
    /// Whether nothing was written to the set since its last dump.
    known: [bool; 2],
    /// Those of each set's last accepted set-up.
    sizes: [Option<Sizes>; 2],
}

/// A dump without its first boundaries: elements are words such as t0=9, those of boundaries begin with c.
fn without(dump: &str, boundaries: usize) -> String {
    let number = |word: &str| word.strip_prefix('c').and_then(|w| w.split_once('=')).map(|(n, _)| n.parse::<usize>().expect("a number"));
    dump.split(' ').filter(|word| number(word).is_none_or(|n| n >= boundaries)).collect::<Vec<_>>().join(" ")
}

impl Piped {
    /// `program` is the command that runs it, word by word.
    pub fn new(program: Vec<String>) -> Piped {
        Piped { program, lines: Vec::new(), wanted: Vec::new(), known: [false; 2], sizes: [None; 2] }
    }

    fn push(&mut self, line: String, wanted: Wanted) {
        self.lines.push(line);
        self.wanted.push(wanted);
    }

    /// A dump that the next one is held against, unless the last one is.
    fn take_down(&mut self, k: usize) {
        if !self.known[k] {
            self.push(format!("dump {k}"), Wanted::Dump(k));
            self.known[k] = true;
        }
    }

    fn stays(&mut self, k: usize, but: usize) {
        self.push(format!("dump {k}"), Wanted::Same(k, but));
    }

    /// A refusal leaves both sets, an accepted `from` the source; after `merge` a set-up with the source's sizes changes nothing.
    fn union(&mut self, k: usize, call: &Call, wanted: &Said) {
        (0..2).for_each(|k| self.take_down(k));
        self.push(call.line(k), Wanted::Answer(wanted.to_string()));
        let refused = wanted.refusal().is_some();
        self.known[k] = refused;
        if refused {
            self.stays(k, 0);
        }
        if let (Some(z), true) = (self.sizes[1 - k], *call == Call::Merge && !refused) {
            self.push(format!("dump {}", 1 - k), Wanted::Dump(1 - k));
            self.push(Call::SetUp(z).line(1 - k), Wanted::Answer(Said::Ok.to_string()));
        }
        self.stays(1 - k, 0);
    }

    fn start(&self) -> Child {
        let mut command = Command::new(&self.program[0]);
        command.args(&self.program[1..]).stdin(Stdio::piped()).stdout(Stdio::piped());
        command.spawn().expect("the program replay can't be started")
    }

    /// Compares all that was pushed, with one run of the program.
    fn compare(&mut self) {
        let mut child = self.start();
        let mut to = child.stdin.take().expect("a pipe");
        let text = self.lines.join("\n") + "\n";
        let writer = thread::spawn(move || to.write_all(text.as_bytes()));
        self.read(BufReader::new(child.stdout.take().expect("a pipe")));
        writer.join().expect("a thread").expect("the program replay stopped reading");
        assert!(child.wait().expect("the program replay").success());
        self.lines.clear();
        self.wanted.clear();
        self.known = [false; 2];
        self.sizes = [None; 2];
    }

    fn read(&self, from: BufReader<ChildStdout>) {
        let mut answers = from.lines().map(|l| l.expect("a line"));
        let mut dumped = [String::new(), String::new()];
        for (i, line) in self.lines.iter().enumerate() {
            let said = answers.next().unwrap_or_else(|| panic!("no answer to line {i}: {line}"));
            match &self.wanted[i] {
                Wanted::Answer(wanted) => assert!(said == *wanted, "line {i}: {line}\nwanted {wanted}\nsaid   {said}"),
                &Wanted::Dump(k) => dumped[k] = said,
                &Wanted::Same(k, but) => {
                    assert!(without(&dumped[k], but) == without(&said, but), "line {i}: set {k} changed, after {:?}", &self.lines[i.saturating_sub(4)..i]);
                    dumped[k] = said;
                }
            }
        }
        assert!(answers.next().is_none(), "more answers than lines");
    }
}

impl Way for Piped {
    fn lends(&self, _: Sizes) -> [usize; 4] {
        POOLS
    }

    /// A run of the program serves some sequences, one after the other.
    fn begin(&mut self) -> bool {
        self.lines.is_empty()
    }

    fn call(&mut self, k: usize, call: &Call, wanted: &Said) {
        if call.is_union() {
            return self.union(k, call, wanted);
        }
        if let (&Call::SetUp(z), Said::Ok) = (call, wanted) {
            self.sizes[k] = Some(z);
        }
        let refused = wanted.refusal().is_some();
        let stays = match wanted {
            Said::Planned(_, bounds) => Some(bounds.len()),
            _ => (refused && (call.writes() || matches!(call, Call::Plan { .. }))).then_some(0),
        };
        if stays.is_some() {
            self.take_down(k);
        }
        self.push(call.line(k), Wanted::Answer(wanted.to_string()));
        if let Some(boundaries) = stays {
            self.stays(k, boundaries);
        }
        self.known[k] &= refused || !call.writes();
    }

    fn end(&mut self) {
        if self.lines.len() >= RUN {
            self.compare();
        }
    }
}

impl Drop for Piped {
    /// The last run.
    fn drop(&mut self) {
        if !self.lines.is_empty() && !thread::panicking() {
            self.compare();
        }
    }
}
