//! What came up in unions: of which kinds the chunks were that met, how their lists ended, and which refusals were given.
use crate::room::Chunk;
use std::collections::BTreeSet;

#[derive(Clone, Copy)]
pub enum Kind {
    /// Two sparse chunks with m - 1, m, m + 1 members together.
    Below,
    At,
    Above,
    SparseIntoDense,
    DenseIntoSparse,
    DenseIntoDense,
    SparseCopied,
    DenseCopied,
    EmptyCopied,
    EqualHeads,
    /// Of two lists that stay one, which is used up first.
    HereFirst,
    ThereFirst,
    DirectHere,
    DirectThere,
    NeedsFreed,
    FromRanked,
    Emptied,
    SourceRanked,
}

const NAMES: [&str; 18] = [
    "sparse unions of m - 1", "sparse unions of m", "sparse unions of m + 1", "sparse into dense", "dense into sparse", "dense into dense",
    "sparse chunks copied", "dense chunks copied", "empty dense chunks copied", "equal heads", "lists used up here first", "lists used up there first",
    "chunks direct here and overflow there", "chunks overflow here and direct there", "unions that need a freed row", "unions from a ranked set",
    "merges that empty a set", "merges refused for a ranked source",
];

#[derive(Default)]
pub struct Unions {
    kinds: [u64; NAMES.len()],
    /// By document 01's number.
    refusals: [u64; 13],
}

impl Unions {
    pub fn count(&mut self, kind: Kind, is: bool) {
        self.kinds[kind as usize] += u64::from(is);
    }

    pub fn refused(&mut self, c: u64) {
        self.refusals[c as usize] += 1;
    }

    /// A chunk of the source, in an accepted union, and what is here.
    pub fn chunk(&mut self, m: u64, here: Option<&Chunk>, there: &Chunk) {
        match here {
            None => {
                let empty = there.offsets.is_empty();
                self.count(if empty { Kind::EmptyCopied } else if there.dense { Kind::DenseCopied } else { Kind::SparseCopied }, true);
            }
            Some(here) => match (here.dense, there.dense) {
                (false, false) => self.lists(m, &here.offsets, &there.offsets),
                (true, false) => self.count(Kind::SparseIntoDense, true),
                (false, true) => self.count(Kind::DenseIntoSparse, true),
                (true, true) => self.count(Kind::DenseIntoDense, true),
            },
        }
    }

    fn lists(&mut self, m: u64, here: &BTreeSet<u64>, there: &BTreeSet<u64>) {
        let both = here.union(there).count() as u64;
        self.count(Kind::Below, both + 1 == m);
        self.count(Kind::At, both == m);
        self.count(Kind::Above, both == m + 1);
        self.count(Kind::EqualHeads, !here.is_disjoint(there));
        self.count(Kind::HereFirst, both <= m && here.last() < there.last());
        self.count(Kind::ThereFirst, both <= m && here.last() > there.last());
    }

    pub fn kinds(&self) -> impl Iterator<Item = (String, u64)> {
        let refusals = [3, 4, 6, 7, 8, 10].map(|c| (format!("unions refused {c}"), self.refusals[c]));
        NAMES.iter().zip(self.kinds).map(|(name, n)| (name.to_string(), n)).chain(refusals)
    }
}
