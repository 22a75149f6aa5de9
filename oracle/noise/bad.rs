//! Memory that breaks a rule of docs/LAYOUT.md: what is wrong with which part of it, and which parts a call over many entries looks at.
use crate::call::Call;
use crate::memory::{Memory, Sizes};
use crate::plain::Plain;
use crate::second::{Word, page_owner_at, row_owner_at, set_bits, standing, word};

/// The rules that the walk tests.
const WALK: [u8; 12] = [1, 2, 3, 4, 5, 6, 7, 8, 9, 13, 17, 18];

pub struct Entry {
    pub chunk: u64,
    pub word: Word,
    pub prefix: u64,
    /// Members of the entries before it.
    pub before: u64,
    /// Its part is not inside its pool.
    pub outside: bool,
    pub shared: bool,
    pub owner: bool,
    pub falling: bool,
    pub far: bool,
}

/// A pool's lowest free slot, from the header's word on: whether an entry names it, whether it holds zeros, whether no entry has a lower one.
#[derive(Clone, Copy, Default)]
pub struct Free {
    pub named: bool,
    pub filled: bool,
    pub passed: bool,
}

/// Memory that breaks a rule, and what is wrong with which part of it.
pub struct Bad {
    pub broken: Vec<u8>,
    pub s: u64,
    pub z: Sizes,
    pub total: u64,
    pub entries: Vec<Entry>,
    /// Whether all entries in use are within the sizes and inside the table.
    pub entries_in: bool,
    pub direct: usize,
    pub rising: bool,
    pub members: u64,
    pub row: Free,
    pub page: Free,
    /// The set that the table speaks of, where the walk finds nothing wrong.
    pub walked: Option<Plain>,
}

/// What a range test or iteration looks at, one entry after the other, and the ids that it finds.
pub struct Looked<'a> {
    pub entries: &'a [Entry],
    pub ids: Vec<i64>,
    /// Whether the chunk ids that it goes by rise, and whether it ends at one that is past the range.
    pub rising: bool,
    pub past: bool,
}

impl Looked<'_> {
    pub fn any(&self, is: impl Fn(&Entry) -> bool) -> bool {
        self.entries.iter().any(is)
    }
}

fn table_end(z: Sizes) -> Option<u64> {
    let over = z.v.checked_mul(3)?;
    z.d.checked_mul(2)?.checked_add(over)?.checked_add(z.r)?.checked_add(z.p)?.checked_add(16)
}

fn row(x: &Memory, m: u64, r: u64, n: u64) -> Option<&[u32]> {
    let from = r.checked_mul(m)?;
    x.rows[..x.lent()[1]].get(from as usize..from.checked_add(n)? as usize)
}

pub fn page(x: &Memory, s: u64, p: u64) -> Option<&[u64]> {
    let (from, wide) = (p.checked_mul(1 << (s - 6))?, 1 << (s - 6));
    x.pages[..x.lent()[0]].get(from as usize..from.checked_add(wide)? as usize)
}

fn bits(words: &[u64]) -> u64 {
    words.iter().map(|w| u64::from(w.count_ones())).sum()
}

impl Bad {
    pub fn new(x: &Memory, broken: Vec<u8>) -> Bad {
        let t = &x.table[..x.lent()[3]];
        let head = |k| t.get(k).copied().unwrap_or(0);
        let z = Sizes { s: head(0), m: head(1), d: head(2), v: head(3), r: head(4), p: head(5) };
        let s = z.s.clamp(9, 25);
        let placed = !matches!(broken[..], [1] | [2]);
        let room = t.len().saturating_sub(16);
        // of the last direct entry the word may be there alone
        let direct = z.d.min(room.div_ceil(2) as u64) as usize;
        let over = if direct as u64 == z.d { head(7).min(z.v).min(room.saturating_sub(2 * direct) as u64 / 3) } else { 0 };
        let places = (0..direct).map(|c| (c as u64, 16 + 2 * c)).chain((0..over as usize).map(|j| 16 + 2 * direct + 3 * j).map(|at| (t[at], at + 1)));
        let mut before = 0;
        let mut entries: Vec<Entry> = places
            .map(|(chunk, at)| {
                let (word, prefix, first) = (word(t[at]), head(at + 1), before);
                let owner_is = |at: usize| !placed || t.get(at).is_none_or(|&w| Some(w) == chunk.checked_add(1));
                let (owner, falling, far) = match word {
                    Word::Row(r, n) => {
                        before += n;
                        let offsets = row(x, z.m, r, n).unwrap_or(&[]);
                        let far = offsets.iter().any(|&o| o >= 1 << s);
                        (r >= z.r || owner_is(if placed { row_owner_at(z, r) } else { 0 }), !offsets.is_sorted_by(|a, b| a < b), far)
                    }
                    Word::Page(p) => {
                        before += page(x, s, p).map_or(0, bits);
                        (p >= z.p || owner_is(if placed { page_owner_at(z, p) } else { 0 }), false, false)
                    }
                    Word::Absent => (true, false, false),
                };
                let outside = match word {
                    Word::Absent => false,
                    Word::Row(r, n) => r >= z.r || z.m > 1024 || n > z.m || row(x, z.m, r, z.m).is_none(),
                    Word::Page(p) => p >= z.p || page(x, s, p).is_none(),
                };
                Entry { chunk, word, prefix, before: first, outside, shared: false, owner, falling, far }
            })
            .collect();
        let slot = |e: &Entry| match e.word {
            Word::Absent => None,
            Word::Row(r, _) => Some((false, r)),
            Word::Page(p) => Some((true, p)),
        };
        let mut slots: Vec<_> = entries.iter().filter_map(slot).collect();
        slots.sort_unstable();
        for e in &mut entries {
            let own = slot(e);
            let at = own.map_or(0, |s| slots.partition_point(|o| *o < s));
            e.shared = own.is_some() && slots.get(at + 1) == own.as_ref();
        }
        let named = |dense: bool, k: u64| slots.binary_search(&(dense, k)).is_ok();
        let free = |dense: bool, from: u64, n: u64, owner: &dyn Fn(u64) -> usize, filled: &dyn Fn(u64) -> bool| {
            let lowest = (from..n).find(|&k| t[owner(k)] == 0).unwrap_or(n);
            Free { named: named(dense, lowest), filled: lowest < n && filled(lowest), passed: (0..lowest).any(|k| !named(dense, k)) }
        };
        let (row, page) = if placed {
            (
                free(false, head(9), z.r, &|r| row_owner_at(z, r), &|r| row(x, z.m, r, z.m).is_some_and(|o| o.iter().any(|&o| o != 0))),
                free(true, head(10), z.p, &|p| page_owner_at(z, p), &|p| page(x, s, p).is_some_and(|w| w.iter().any(|&w| w != 0))),
            )
        } else {
            (Free::default(), Free::default())
        };
        let entries_in = z.s == s && z.d <= 262_144 && head(7) <= z.v.min(65_536) && 16 + 2 * z.d + 3 * head(7) <= t.len() as u64;
        let rising = entries[direct..].is_sorted_by(|a, b| a.chunk < b.chunk);
        let rises = entries.is_sorted_by(|a, b| a.prefix <= b.prefix) && entries.last().is_none_or(|e| e.prefix <= head(8)) && head(8) < 1 << 63;
        let walks = !broken.iter().any(|r| WALK.contains(r)) && (head(6) == 0 || rises);
        let walked = if walks { standing(x) } else { None };
        Bad { broken, s, z, total: head(8), entries, entries_in, direct, rising, members: before, row, page, walked }
    }

    pub fn breaks(&self, rules: &[u8]) -> bool {
        rules.iter().any(|r| self.broken.contains(r))
    }

    /// Where the chunk's entry is or would be, ids rising.
    pub fn place(&self, c: u64) -> (usize, Option<&Entry>) {
        let at = if c < self.direct as u64 { c as usize } else { self.direct + self.entries[self.direct..].partition_point(|e| e.chunk < c) };
        (at, self.entries.get(at).filter(|e| e.chunk == c))
    }

    pub fn any(&self, is: impl Fn(&Entry) -> bool) -> bool {
        self.entries.iter().any(is)
    }

    /// What the part of an entry holds, as far as it is there.
    fn offsets(&self, x: &Memory, w: Word) -> Vec<u32> {
        match w {
            Word::Absent => vec![],
            Word::Row(r, n) => row(x, self.z.m, r, n).unwrap_or_default().to_vec(),
            Word::Page(p) => page(x, self.s, p).map_or(vec![], set_bits),
        }
    }

    /// Whether the chunk of an entry has the offset, and how many it has below.
    pub fn slot(&self, x: &Memory, w: Word, o: u64) -> (bool, u64) {
        let offsets = self.offsets(x, w);
        (offsets.contains(&(o as u32)), offsets.iter().filter(|&&p| u64::from(p) < o).count() as u64)
    }

    /// Whether the one block count that a rank reads is not the members before the block.
    pub fn blocks_wrong(&self, x: &Memory, w: Word, o: u64) -> bool {
        let Word::Page(p) = w else { return false };
        let Some(words) = page(x, self.s, p) else { return false };
        let count = x.blocks.get((p << (self.s - 9) | o / 512) as usize).copied().unwrap_or(0);
        u64::from(count) != bits(&words[..o as usize / 512 * 8])
    }

    /// Where the elements past the sizes begin; with sizes of no meaning, those that are not lent.
    pub fn ends(&self, x: &Memory) -> [usize; 4] {
        let z = self.z;
        let lent = x.lent();
        if !(9..=25).contains(&z.s) {
            return lent;
        }
        let ends = [z.p.checked_shl(z.s as u32 - 6), z.r.checked_mul(z.m), z.p.checked_shl(z.s as u32 - 9), table_end(z)];
        let ends = [(ends[0], z.p < 1 << 32), (ends[1], true), (ends[2], z.p < 1 << 32), (ends[3], true)];
        std::array::from_fn(|k| if let (Some(n), true) = ends[k] { lent[k].min(n as usize) } else { lent[k] })
    }

    /// The entries from the low id's on, up to the high id's, until a range test has an id, or iteration one more than its record holds.
    /// None where no id is asked for.
    pub fn looked(&self, x: &Memory, call: Call) -> Option<Looked<'_>> {
        let (low, high, most) = match call {
            Call::Any(min, max) if min <= max && max >= 0 => (min.max(0), max, 1),
            Call::Iter(start) => (start.max(0), i64::MAX, 65),
            _ => return None,
        };
        let (from, mut ids) = (self.place(low as u64 >> self.s).0, vec![]);
        let mut to = from;
        while let Some(e) = self.entries.get(to).filter(|e| ids.len() < most && e.chunk <= high as u64 >> self.s) {
            let all = self.offsets(x, e.word).into_iter().filter(|&o| o < 1 << self.s).map(|o| (e.chunk << self.s | u64::from(o)) as i64);
            ids.extend(all.filter(|id| (low..=high).contains(id)));
            to += 1;
        }
        let (entries, goes_on) = (&self.entries[from..to], ids.len() < most);
        let overflow = to > self.direct || to == self.direct && goes_on;
        let rising = entries.is_sorted_by(|a, b| a.chunk < b.chunk) && (self.rising || !overflow);
        Some(Looked { entries, ids, rising, past: goes_on && to < self.entries.len() })
    }
}
