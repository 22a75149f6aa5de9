//! The crate's declarations are those of the header: refusals, entries, and where the fields of an answer lie.
use brothpillow::Refusal;
use brothpillow::sys::{Done, Interval, Listing, Number, Optional, Planned, RankedSpan, Truth};
use std::collections::BTreeSet;
use std::mem::{offset_of, size_of};

const HEADER: &str = include_str!("../../include/brothpillow.h");
const ENTRIES: &str = include_str!("../src/sys.rs");

/// `NotLaidOut` as the header writes it: `BP_NOT_LAID_OUT`.
fn constant(refusal: Refusal) -> String {
    let name = format!("{refusal:?}");
    let parts = name.chars().map(|c| if c.is_uppercase() { format!("_{c}") } else { c.to_uppercase().to_string() });
    format!("BP{}", parts.collect::<String>())
}

#[test]
fn refusals_have_the_headers_names_and_numbers() {
    let defined = HEADER.lines().filter_map(|line| {
        let (name, rest) = line.strip_prefix("#define ")?.split_once(" UINT64_C(")?;
        Some((name.to_string(), rest.split_once(')')?.0.parse::<u64>().ok()?))
    });
    assert_eq!(defined.collect::<Vec<_>>(), Refusal::ALL.map(|refusal| (constant(refusal), refusal.number())));
}

#[test]
fn entries_are_those_of_the_header() {
    let declared = HEADER.lines().filter(|line| line.ends_with(';') && !line.starts_with([' ', '}', '/', '#']));
    let declared: BTreeSet<&str> =
        declared.filter_map(|line| line.split_once('(')?.0.rsplit_once(' ')).map(|f| f.1).collect();
    let here = ENTRIES.lines().filter_map(|line| line.split_once(" = bp_")?.1.split_once('('));
    let here: BTreeSet<String> = here.map(|(name, _)| format!("bp_{name}")).collect();
    assert!(declared.iter().copied().eq(here.iter().map(String::as_str)), "{declared:?}\n{here:?}");
    assert!(declared.len() >= 30);
}

#[test]
fn answers_lie_as_in_c() {
    assert_eq!([size_of::<Done>(), size_of::<Truth>(), size_of::<Number>(), size_of::<Optional>()], [8, 16, 16, 24]);
    assert_eq!([size_of::<Planned>(), size_of::<Interval>(), size_of::<RankedSpan>()], [32, 32, 24]);
    assert_eq!((offset_of!(Truth, yes), offset_of!(Number, value)), (8, 8));
    assert_eq!((offset_of!(Optional, has), offset_of!(Optional, value)), (8, 16));
    assert_eq!((offset_of!(Interval, has_high), offset_of!(Interval, low), offset_of!(Interval, high)), (8, 16, 24));
    let listing =
        [offset_of!(Listing, ids), offset_of!(Listing, count), offset_of!(Listing, end), offset_of!(Listing, next)];
    assert_eq!((listing, size_of::<Listing>()), ([8, 520, 528, 536], 544));
}
