//! What was measured: a row for each call, the shortest time of all rounds on either side, and the table that a reader gets.
use crate::clock::worked;
use std::fmt::Write;
use std::time::Duration;

/// What a row's times are told in, and how many nanoseconds that has.
#[derive(Clone, Copy)]
pub struct Unit(&'static str, f64);

pub const NS: Unit = Unit("ns", 1.0);
pub const US: Unit = Unit("µs", 1e3);
pub const MS: Unit = Unit("ms", 1e6);

/// The rows in a reader's order.
const ROWS: [(&str, Unit); 34] = [
    ("insert rising, dense", NS),
    ("insert random, dense", NS),
    ("`set` rising, dense, of members", NS),
    ("`get` random", NS),
    ("`rank` random", NS),
    ("`rank_if_set` random", NS),
    ("insert rising, dense, a list", NS),
    ("`get` random, a list", NS),
    ("`rank` random, a list", NS),
    ("`rank_if_set` random, a list", NS),
    ("insert rising into rows", NS),
    ("insert rising at the end of rows", NS),
    ("`get` random in rows", NS),
    ("`get` random in eight rows", NS),
    ("`get` random in eight rows of eight", NS),
    ("`get` random in rows of eight", NS),
    ("insert rising into rows, a list", NS),
    ("`get` random in rows, a list", NS),
    ("ranking", MS),
    ("a boundary of a plan of 200", US),
    ("`allocated_chunk_count`", US),
    ("`is_empty`", US),
    ("`len`", MS),
    ("`any_in_range` random, ten ids", NS),
    ("iteration, an id", NS),
    ("union of two halves, dense", MS),
    ("union of two halves, rows", MS),
    ("a new chunk, up to 256", NS),
    ("a new chunk, up to 1,000", NS),
    ("a new chunk, up to 8,000", NS),
    ("a new chunk, up to 65,536", NS),
    ("one id in each of 65,536 chunks", MS),
    ("full check, open", MS),
    ("full check, ranked", MS),
];

/// Turns in a round over many ids.
const PARTS: usize = 8;

pub struct Row {
    pub name: &'static str,
    unit: Unit,
    /// Nanoseconds of a call, the fewest so far.
    library: Option<f64>,
    rust: Option<f64>,
}

impl Row {
    pub fn ratio(&self) -> Option<f64> {
        Some(self.library? / self.rust?)
    }
}

pub struct Table {
    pub rows: Vec<Row>,
}

/// The library, then the Rust: they have to answer the same.
pub fn in_turn(name: &str, library: impl FnOnce() -> u64, rust: impl FnOnce() -> u64) -> (Duration, Duration) {
    let (library, said) = worked(library);
    let (rust, wanted) = worked(rust);
    assert_eq!(said, wanted, "{name}: the library and the Rust answer differently");
    (library, rust)
}

/// Three digits that count, four of a small part.
pub fn short(x: f64) -> String {
    match x {
        _ if x >= 100.0 => format!("{x:.0}"),
        _ if x >= 10.0 => format!("{x:.1}"),
        _ if x >= 0.1 => format!("{x:.2}"),
        _ => format!("{x:.4}"),
    }
}

impl Table {
    pub fn new() -> Table {
        Table { rows: ROWS.map(|(name, unit)| Row { name, unit, library: None, rust: None }).into() }
    }

    /// So many calls on either side.
    pub fn both(&mut self, name: &str, calls: usize, library: impl FnOnce() -> u64, rust: impl FnOnce() -> u64) {
        let (library, rust) = in_turn(name, library, rust);
        self.keep(name, calls, library, Some(rust));
    }

    /// A loop over these ids on either side, some of them at a time. The loop is the caller's: a call by itself would read its lent slices anew each time.
    pub fn over(&mut self, name: &str, ids: &[i64], mut library: impl FnMut(&[i64]) -> u64, mut rust: impl FnMut(&[i64]) -> u64) {
        for part in ids.chunks(ids.len().div_ceil(PARTS)) {
            self.both(name, part.len(), || library(part), || rust(part));
        }
    }

    /// A call that the Rust has not: it has to answer yes.
    pub fn alone(&mut self, name: &str, library: impl FnOnce() -> bool) {
        let (library, yes) = worked(|| u64::from(library()));
        assert_eq!(yes, 1, "{name}");
        self.keep(name, 1, library, None);
    }

    pub fn keep(&mut self, name: &str, calls: usize, library: Duration, rust: Option<Duration>) {
        let row = self.rows.iter_mut().find(|row| row.name == name).expect("a row of the table");
        let least = |old: Option<f64>, new: Duration| Some(old.unwrap_or(f64::INFINITY).min(new.as_nanos() as f64 / calls as f64));
        row.library = least(row.library, library);
        row.rust = rust.and_then(|new| least(row.rust, new));
    }

    /// The rows that were measured.
    pub fn text(&self) -> String {
        let mut out = String::from("| call | | library | Rust | ratio |\n|---|---|---:|---:|---:|\n");
        for row in &self.rows {
            let Unit(unit, ns) = row.unit;
            let told = |side: Option<f64>| side.map_or("-".to_string(), |x| short(x / ns));
            if row.library.is_some() {
                let ratio = row.ratio().map_or("-".to_string(), short);
                writeln!(out, "| {} | {unit} | {} | {} | {ratio} |", row.name, told(row.library), told(row.rust)).expect("a string");
            }
        }
        out
    }
}
