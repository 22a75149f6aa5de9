//! Compares the library with the Rust, at the sizes that the Rust was built for. After the sizes s m D V R P and a seed comes a way to reach the library:
//! `linked SEQUENCES LENGTH`, `held SEQUENCES LENGTH` (linked, and every set-up with these sizes), `piped SEQUENCES LENGTH PROGRAM..`,
//! `listed SEQUENCES LENGTH CALLS ANSWERS` (writes the answers down),
//! or `linked-all DEPTH`, `piped-all DEPTH PROGRAM..`: every sequence of so many calls.
mod all;
mod call;
mod calls;
#[allow(dead_code, clippy::all)]
mod coord_pack;
#[allow(dead_code, clippy::all)]
mod idset;
mod lent;
mod linked;
mod listed;
mod lists;
#[allow(dead_code, clippy::all)]
mod locations;
mod many;
mod marking;
mod marks;
mod memory;
mod piped;
mod planning;
mod room;
mod rust;
mod script;
mod tally;
mod unions;
mod uniting;

use call::Sizes;
use script::{Script, Way};

/// Stand-ins for what the Rust's files lean on.
mod error {
    pub trait Leaf {}
}
mod coord_fmt {
    pub fn e7_to_deg(e7: f64) -> f64 {
        e7 / 1e7
    }
}
#[derive(Debug)]
pub struct Error;
impl Error {
    pub fn internal(_: &str) -> Error {
        Error
    }
}
pub type Result<T> = std::result::Result<T, Error>;

fn main() {
    let words: Vec<String> = std::env::args().skip(1).collect();
    let number = |i: usize| words[i].parse::<u64>().expect("a number");
    let z = Sizes { s: number(0), m: number(1), d: number(2), v: number(3), r: number(4), p: number(5) };
    let (seed, way) = (number(6), words[7].as_str());
    let mut reached: Box<dyn Way> = match way {
        "linked" | "held" | "linked-all" => Box::new(linked::Linked::new(z)),
        "piped" => Box::new(piped::Piped::new(words[10..].to_vec())),
        "piped-all" => Box::new(piped::Piped::new(words[9..].to_vec())),
        "listed" => Box::new(listed::Listed::new(&words[10], &words[11])),
        _ => panic!("no way to reach the library: {way}"),
    };
    let mut script = Script::new(&mut *reached, z, way == "held", seed);
    if way.ends_with("-all") {
        all::one_set(&mut script, z, number(8) as u32);
        all::two_sets(&mut script, z, number(8) as u32);
    } else {
        (0..number(8)).for_each(|_| script.random_sequence(number(9)));
    }
    let t = script.tally;
    drop(reached);
    assert!(way != "held" || t.promotions.iter().all(|&n| n >= t.sequences), "at sizes that are held a direct and an overflow chunk become dense in each sequence");
    println!("{way}: s {} m {} D {} V {} R {} P {}: {t}", z.s, z.m, z.d, z.v, z.r, z.p);
}
