//! The full check a second time, written from docs/LAYOUT.md alone, and the set that memory then stands for.
use crate::memory::{Memory, Needs, Sizes};
use crate::plain::{Chunk, Plain};

/// What an entry's word says.
#[derive(Clone, Copy)]
pub enum Word {
    Absent,
    Row(u64, u64),
    Page(u64),
}

pub fn word(w: u64) -> Word {
    match w {
        0 => Word::Absent,
        1..0x1000_0000 => Word::Row((w - 1) / 2048, (w - 1) % 2048),
        _ => Word::Page(w - 0x1000_0000),
    }
}

/// Places in the table. An entry has its word first and its prefix next; an overflow entry's chunk id stands before them.
pub fn direct_at(c: u64) -> usize {
    (16 + 2 * c) as usize
}

pub fn over_at(z: Sizes, j: u64) -> usize {
    (16 + 2 * z.d + 3 * j) as usize
}

pub fn row_owner_at(z: Sizes, r: u64) -> usize {
    (16 + 2 * z.d + 3 * z.v + r) as usize
}

pub fn page_owner_at(z: Sizes, p: u64) -> usize {
    (16 + 2 * z.d + 3 * z.v + z.r + p) as usize
}

struct Entry {
    chunk: u64,
    word: u64,
    prefix: u64,
}

/// Memory whose sizes and lengths are as they should be: every place is there.
struct View<'a> {
    z: Sizes,
    x: &'a Memory,
    entries: Vec<Entry>,
}

impl<'a> View<'a> {
    /// Rules 1 and 2, on which every place rests; else the one that is broken.
    fn new(x: &'a Memory) -> Result<View<'a>, u8> {
        let lent = x.lent();
        if lent[3] < 16 {
            return Err(2);
        }
        let t = &x.table;
        let z = Sizes { s: t[0], m: t[1], d: t[2], v: t[3], r: t[4], p: t[5] };
        if !sizes_allowed(z) {
            return Err(1);
        }
        if z.needs().iter().zip(lent).any(|(&n, has)| has < n) {
            return Err(2);
        }
        Ok(View { z, x, entries: entries(z, t) })
    }

    fn ranked(&self) -> bool {
        self.x.table[6] != 0
    }

    fn in_use(&self) -> u64 {
        self.x.table[7]
    }

    fn over(&self, j: u64) -> &[u64] {
        &self.x.table[over_at(self.z, j)..][..3]
    }

    fn row_owner(&self, r: u64) -> u64 {
        self.x.table[row_owner_at(self.z, r)]
    }

    fn page_owner(&self, p: u64) -> u64 {
        self.x.table[page_owner_at(self.z, p)]
    }

    fn row(&self, r: u64) -> &[u32] {
        &self.x.rows[(r * self.z.m) as usize..][..self.z.m as usize]
    }

    fn page(&self, p: u64) -> &[u64] {
        let words = 1 << (self.z.s - 6);
        &self.x.pages[p as usize * words..][..words]
    }

    fn block_counts(&self, p: u64) -> &[u32] {
        let blocks = 1 << (self.z.s - 9);
        &self.x.blocks[p as usize * blocks..][..blocks]
    }

    /// Members of an entry; a word that names no page has none.
    fn members(&self, e: &Entry) -> u64 {
        match word(e.word) {
            Word::Absent => 0,
            Word::Row(_, length) => length,
            Word::Page(p) if p < self.z.p => bits(self.page(p)),
            Word::Page(_) => 0,
        }
    }

    fn offsets(&self, e: &Entry) -> Option<Chunk> {
        match word(e.word) {
            Word::Absent => None,
            Word::Row(slot, length) => Some(Chunk { dense: false, slot, offsets: self.row(slot)[..length as usize].to_vec() }),
            Word::Page(slot) => Some(Chunk { dense: true, slot, offsets: set_bits(self.page(slot)) }),
        }
    }
}

impl View<'_> {
    fn set(&self) -> Plain {
        let chunks = self.entries.iter().filter_map(|e| self.offsets(e).map(|c| (e.chunk, c))).collect();
        Plain { sizes: self.z, ranked: self.ranked(), chunks }
    }
}

pub fn sizes_allowed(z: Sizes) -> bool {
    (9..=25).contains(&z.s) && (1..=1024).contains(&z.m) && z.d <= 262_144 && z.v <= 65_536 && z.r <= 65_536 && z.p <= 65_536
}

/// Direct entries, then the overflow entries in use; where more are said to be in use than there are, those that there are.
fn entries(z: Sizes, t: &[u64]) -> Vec<Entry> {
    let direct = (0..z.d).map(|c| (c, direct_at(c)));
    let over = (0..t[7].min(z.v)).map(|j| over_at(z, j)).map(|at| (t[at], at + 1));
    direct.chain(over).map(|(chunk, at)| Entry { chunk, word: t[at], prefix: t[at + 1] }).collect()
}

fn bits(words: &[u64]) -> u64 {
    words.iter().map(|w| u64::from(w.count_ones())).sum()
}

pub fn set_bits(words: &[u64]) -> Vec<u32> {
    let mut all = vec![];
    for (k, &word) in words.iter().enumerate() {
        let mut left = word;
        while left != 0 {
            all.push(k as u32 * 64 + left.trailing_zeros());
            left &= left - 1;
        }
    }
    all
}

fn mode(v: &View) -> bool {
    v.x.table[6] <= 1
}

fn unused_header(v: &View) -> bool {
    v.x.table[11..16].iter().all(|&w| w == 0)
}

fn overflow_fits(v: &View) -> bool {
    v.in_use() <= v.z.v
}

fn overflow_ids(v: &View) -> bool {
    let over = &v.entries[v.z.d as usize..];
    over.iter().all(|e| e.chunk >= v.z.d && e.chunk < 1 << (63 - v.z.s)) && over.windows(2).all(|e| e[0].chunk < e[1].chunk)
}

fn overflow_words(v: &View) -> bool {
    v.entries[v.z.d as usize..].iter().all(|e| e.word != 0)
}

fn overflow_rest(v: &View) -> bool {
    (v.in_use()..v.z.v).all(|j| v.over(j) == [0, 0, 0])
}

fn slots(v: &View) -> bool {
    v.entries.iter().all(|e| match word(e.word) {
        Word::Absent => true,
        Word::Row(r, length) => r < v.z.r && (1..=v.z.m).contains(&length) && e.chunk.checked_add(1) == Some(v.row_owner(r)),
        Word::Page(p) => p < v.z.p && e.chunk.checked_add(1) == Some(v.page_owner(p)),
    })
}

fn rows_rise(v: &View) -> bool {
    v.entries.iter().all(|e| match word(e.word) {
        Word::Row(r, length) if r < v.z.r && length <= v.z.m => {
            let (used, rest) = v.row(r).split_at(length as usize);
            used.iter().all(|&o| o < 1 << v.z.s) && used.windows(2).all(|o| o[0] < o[1]) && rest.iter().all(|&o| o == 0)
        }
        _ => true,
    })
}

fn free_rows(v: &View) -> bool {
    (0..v.z.r).all(|r| v.row_owner(r) != 0 || v.row(r).iter().all(|&o| o == 0))
}

fn free_pages(v: &View) -> bool {
    (0..v.z.p).all(|p| v.page_owner(p) != 0 || v.page(p).iter().all(|&w| w == 0))
}

fn owners(v: &View) -> bool {
    let sparse = v.entries.iter().filter(|e| matches!(word(e.word), Word::Row(..))).count();
    let dense = v.entries.iter().filter(|e| matches!(word(e.word), Word::Page(_))).count();
    let rows = (0..v.z.r).filter(|&r| v.row_owner(r) != 0).count();
    let pages = (0..v.z.p).filter(|&p| v.page_owner(p) != 0).count();
    rows == sparse && pages == dense
}

fn prefixes(v: &View) -> bool {
    let mut before = 0;
    v.entries.iter().all(|e| {
        let fits = e.prefix == if v.ranked() { before } else { 0 };
        before += v.members(e);
        fits
    })
}

fn total(v: &View) -> bool {
    let all = v.entries.iter().map(|e| v.members(e)).sum();
    v.x.table[8] == if v.ranked() { all } else { 0 }
}

fn block_counts(v: &View) -> bool {
    (0..v.z.p).all(|p| {
        let wanted = |b: usize| if v.ranked() { bits(&v.page(p)[..8 * b]) } else { 0 };
        v.block_counts(p).iter().enumerate().all(|(b, &n)| u64::from(n) == wanted(b))
    })
}

fn no_free_row_below(v: &View) -> bool {
    let k = v.x.table[9];
    k <= v.z.r && (0..k).all(|r| v.row_owner(r) != 0)
}

fn no_free_page_below(v: &View) -> bool {
    let k = v.x.table[10];
    k <= v.z.p && (0..k).all(|p| v.page_owner(p) != 0)
}

/// Rules 3 to 18, in their order. Each can be asked of any view, so that it can be told which are broken.
const RULES: [fn(&View) -> bool; 16] = [
    mode, unused_header, overflow_fits, overflow_ids, overflow_words, overflow_rest, slots, rows_rise, free_rows, free_pages, owners,
    prefixes, total, block_counts, no_free_row_below, no_free_page_below,
];

/// The set that memory stands for, or the rules that it breaks.
pub fn read(x: &Memory) -> Result<Plain, Vec<u8>> {
    let v = View::new(x).map_err(|rule| vec![rule])?;
    let broken: Vec<u8> = (3..).zip(RULES).filter(|(_, rule)| !rule(&v)).map(|(k, _)| k).collect();
    if !broken.is_empty() {
        return Err(broken);
    }
    Ok(v.set())
}

/// The set that the entries speak of, where rules 1 to 9 hold.
pub fn standing(x: &Memory) -> Option<Plain> {
    View::new(x).ok().map(|v| v.set())
}
