//! Memory that no call made: changes that matter often, and noise.
use crate::memory::{Memory, Needs, Sizes};
use crate::second::{Word, direct_at, over_at, page_owner_at, row_owner_at, word};

pub struct Random(u64);

impl Random {
    /// A generator for each of several numbers together, so that one round can be run alone.
    pub fn new(seeds: &[u64]) -> Random {
        let mix = |h: u64, &k: &u64| (h ^ k).wrapping_mul(0x9e37_79b9_7f4a_7c15).rotate_left(29);
        Random(seeds.iter().fold(0x2545_f491_4f6c_dd1d, mix) | 1)
    }

    pub fn next(&mut self) -> u64 {
        self.0 ^= self.0 << 13;
        self.0 ^= self.0 >> 7;
        self.0 ^= self.0 << 17;
        self.0.wrapping_mul(0x2545_f491_4f6c_dd1d) >> 1
    }

    /// 0 where there is nothing to choose from.
    pub fn below(&mut self, n: u64) -> u64 {
        self.next() % n.max(1)
    }

    pub fn one_in(&mut self, n: u64) -> bool {
        self.below(n) == 0
    }

    pub fn pick<T: Copy>(&mut self, from: &[T]) -> T {
        from[self.below(from.len() as u64) as usize]
    }

    /// A word near this one, or one of the words that mean something.
    fn near(&mut self, w: u64) -> u64 {
        match self.below(14) {
            0 | 1 => w.wrapping_add(1),
            2 | 3 => w.wrapping_sub(1),
            4 => w ^ 1 << self.below(64),
            5 => w ^ 1 << self.below(12),
            6 => 0,
            7 => self.below(9),
            8 => w.wrapping_add(2048),
            9 => w.wrapping_sub(2048),
            10 => 0x1000_0000 + self.below(4),
            11 => 1 + 2048 * self.below(4) + self.below(4),
            12 => self.pick(&[u64::MAX, 1 << 63, 1 << 32, 1 << 28, (1 << 28) - 1, 65_536, 262_145]),
            _ => self.next() << 1 | self.below(2),
        }
    }
}

/// Changes the element if it is there.
fn change<T: Copy>(t: &mut [T], at: usize, to: impl FnOnce(T) -> T) {
    if let Some(w) = t.get_mut(at) {
        *w = to(*w);
    }
}

fn at(t: &[u64], k: usize) -> u64 {
    t.get(k).copied().unwrap_or(0)
}

/// Memory with the sizes that it was made with: its header may have been changed since.
struct Poke<'a> {
    g: &'a mut Random,
    x: &'a mut Memory,
    z: Sizes,
}

impl Poke<'_> {
    fn entry(&mut self) -> usize {
        let beyond = u64::from(self.g.one_in(4));
        let e = self.g.below(self.z.d + self.z.v.min(at(&self.x.table, 7).saturating_add(beyond)));
        if e < self.z.d { direct_at(e) } else { over_at(self.z, e - self.z.d) + 1 }
    }

    /// An entry that has a slot, if one is found soon.
    fn present(&mut self) -> usize {
        let tries = [(); 6].map(|()| self.entry());
        tries.into_iter().find(|&e| at(&self.x.table, e) != 0).unwrap_or(tries[0])
    }

    fn over(&mut self) -> usize {
        let n = at(&self.x.table, 7).min(self.z.v);
        over_at(self.z, self.g.below(n))
    }

    fn owner_of(&self, w: u64) -> Option<usize> {
        match word(w) {
            Word::Absent => None,
            Word::Row(r, _) => (r < self.z.r).then(|| row_owner_at(self.z, r)),
            Word::Page(p) => (p < self.z.p).then(|| page_owner_at(self.z, p)),
        }
    }

    fn owner(&mut self) -> usize {
        row_owner_at(self.z, self.g.below(self.z.r + self.z.p))
    }

    fn any_element(&mut self) {
        let [pages, rows, blocks, table] = self.x.lent().map(|n| n as u64);
        let g = &mut *self.g;
        match g.below(5) {
            0 => change(&mut self.x.pages, g.below(pages) as usize, |w| g.near(w)),
            1 => change(&mut self.x.rows, g.below(rows) as usize, |w| g.near(w.into()) as u32),
            2 => change(&mut self.x.blocks, g.below(blocks) as usize, |w| g.near(w.into()) as u32),
            _ => change(&mut self.x.table, g.below(table) as usize, |w| g.near(w)),
        }
    }

    fn header(&mut self) {
        let k = self.g.below(16) as usize;
        let g = &mut *self.g;
        change(&mut self.x.table, k, |w| if k == 6 && g.below(4) > 0 { g.pick(&[0, 1, 1, 2, u64::MAX]) } else { g.near(w) });
    }

    fn table_word(&mut self, k: usize) {
        let g = &mut *self.g;
        change(&mut self.x.table, k, |w| g.near(w));
    }

    fn entry_word(&mut self) {
        let e = self.present();
        self.table_word(e);
    }

    fn prefix(&mut self) {
        let e = self.entry() + 1;
        self.table_word(e);
    }

    fn unused_entry(&mut self) {
        let k = over_at(self.z, self.g.below(self.z.v)) + self.g.below(3) as usize;
        self.table_word(k);
    }

    fn swap_in_table(&mut self, a: usize, b: usize) {
        if a.max(b) < self.x.table.len() {
            self.x.table.swap(a, b);
        }
    }

    /// Two chunks exchange their words; with their owners too they exchange what they hold, which keeps an open set in order.
    fn swap_words(&mut self) {
        let (a, b) = (self.present(), self.present());
        let places = [a, b].map(|e| self.owner_of(at(&self.x.table, e)));
        self.swap_in_table(a, b);
        if let ([Some(a), Some(b)], true) = (places, self.g.below(3) > 0) {
            self.swap_in_table(a, b);
        }
    }

    fn copy_word(&mut self) {
        let (a, b) = (self.present(), self.entry());
        let w = at(&self.x.table, a);
        change(&mut self.x.table, b, |_| w);
    }

    fn owners(&mut self) {
        let (a, b) = (self.owner(), self.owner());
        match self.g.below(3) {
            0 => self.swap_in_table(a, b),
            1 => {
                let w = at(&self.x.table, a);
                change(&mut self.x.table, b, |_| w);
            }
            _ => self.table_word(a),
        }
    }

    /// Another chunk id for an overflow entry, mostly with its owner to match: then only order and bounds can be wrong.
    fn rename(&mut self) {
        let (k, other) = (self.over(), self.over());
        let end = 1 << (63 - self.z.s);
        let old = at(&self.x.table, k);
        let id = match self.g.below(8) {
            0 => at(&self.x.table, other),
            1 => end - self.g.below(2),
            2 => end + self.g.below(2),
            3 => self.z.d.wrapping_sub(self.g.below(3)),
            4 => old.wrapping_add(1),
            5 => old.wrapping_sub(1),
            _ => self.z.d + self.g.below(12),
        };
        change(&mut self.x.table, k, |_| id);
        if let (Some(owner), true) = (self.owner_of(at(&self.x.table, k + 1)), self.g.below(5) > 0) {
            change(&mut self.x.table, owner, |_| id.wrapping_add(1));
        }
    }

    fn swap_overflow(&mut self) {
        let (a, b) = (self.over(), self.over());
        (0..3).for_each(|k| self.swap_in_table(a + k, b + k));
    }

    fn offset(&mut self) {
        let w = self.present();
        let (r, length) = match word(at(&self.x.table, w)) {
            Word::Row(r, length) if self.g.below(6) > 0 => (r, length),
            _ => (self.g.below(self.z.r), self.z.m),
        };
        let m = self.z.m;
        let k = (r.wrapping_mul(m) as usize).saturating_add(self.g.below((length + 1).min(m)) as usize);
        let next = self.x.rows.get(k.saturating_add(1)).copied().unwrap_or(0);
        let (g, end) = (&mut *self.g, 1u32 << self.z.s);
        change(&mut self.x.rows, k, |o| match g.below(7) {
            0 => next,
            1 => end + g.below(2) as u32,
            2 => end - 1,
            3 => next.wrapping_add(1),
            4 => g.next() as u32,
            _ => g.near(o.into()) as u32,
        });
    }

    fn swap_offsets(&mut self) {
        let a = self.g.below(self.z.r * self.z.m) as usize;
        let b = if self.g.one_in(2) { a + 1 } else { self.g.below(self.z.r * self.z.m) as usize };
        if a.max(b) < self.x.rows.len() {
            self.x.rows.swap(a, b);
        }
    }

    /// One offset less, or one more, mostly with the row to match: an open set stays in order, in a ranked one counts are wrong.
    fn length(&mut self) {
        let e = self.present();
        let Word::Row(r, length) = word(at(&self.x.table, e)) else { return };
        let (more, fit, end) = (self.g.one_in(2), self.g.below(3) > 0, 1u32 << self.z.s);
        let last = (r.saturating_mul(self.z.m) + length) as usize;
        change(&mut self.x.table, e, |w| if more { w + 1 } else { w - 1 });
        match (fit, more) {
            (true, true) => change(&mut self.x.rows, last, |_| end - 1),
            (true, false) => change(&mut self.x.rows, last.wrapping_sub(1), |_| 0),
            _ => (),
        }
    }

    fn page_bit(&mut self) {
        let bit = 1 << self.g.below(64);
        let k = self.g.below(self.z.p << (self.z.s - 6)) as usize;
        change(&mut self.x.pages, k, |w| w ^ bit);
    }

    /// As many members as a record of iteration holds, or more.
    fn page_words(&mut self) {
        let k = self.g.below(self.z.p << (self.z.s - 6)) as usize;
        let last = k + self.g.below(2) as usize;
        (k..=last).for_each(|k| change(&mut self.x.pages, k, |_| u64::MAX));
    }

    fn block_count(&mut self) {
        let k = self.g.below(self.z.p << (self.z.s - 9)) as usize;
        let g = &mut *self.g;
        change(&mut self.x.blocks, k, |n| g.near(n.into()) as u32);
    }

    /// A chunk taken away: its word, its owner, what its slot holds, or only some of these.
    fn drop_chunk(&mut self) {
        let e = self.present();
        let w = at(&self.x.table, e);
        let (word_too, owner_too, slot_too) = (self.g.below(6) > 0, self.g.below(6) > 0, self.g.below(3) > 0);
        if let (Some(owner), true) = (self.owner_of(w), owner_too) {
            change(&mut self.x.table, owner, |_| 0);
        }
        if slot_too {
            self.zero_slot(w);
        }
        if word_too {
            change(&mut self.x.table, e, |_| 0);
        }
    }

    fn zero_slot(&mut self, w: u64) {
        match word(w) {
            Word::Row(r, _) if r < self.z.r => (0..self.z.m).for_each(|k| change(&mut self.x.rows, (r * self.z.m + k) as usize, |_| 0)),
            Word::Page(p) if p < self.z.p => {
                let words = 1 << (self.z.s - 6);
                (0..words).for_each(|k| change(&mut self.x.pages, p as usize * words + k, |_| 0));
            }
            _ => (),
        }
    }

    /// A row's list in another row, with the word and owners to match, or nearly.
    fn move_row(&mut self) {
        let e = self.present();
        let Word::Row(from, length) = word(at(&self.x.table, e)) else { return };
        let (to, m) = (self.g.below(self.z.r), self.z.m);
        if (from.max(to) + 1).saturating_mul(m) as usize > self.x.rows.len() {
            return;
        }
        (0..m).for_each(|k| self.x.rows.swap((from * m + k) as usize, (to * m + k) as usize));
        self.swap_in_table(row_owner_at(self.z, from), row_owner_at(self.z, to));
        if self.g.below(5) > 0 {
            change(&mut self.x.table, e, |_| 1 + 2048 * to + length);
        }
    }

    /// Fewer elements lent, none at all, or more of them.
    fn lengths(&mut self) {
        let (kept, few) = (self.x.kept, self.g.below(4) as usize);
        let (shorter, none, which, fill) = (self.g.below(3) > 0, self.g.one_in(6), self.g.below(4), self.g.below(3));
        let to = |n: usize| if none { kept } else if shorter { n.saturating_sub(few).max(kept) } else { n + few };
        let x = &mut *self.x;
        match which {
            0 => x.pages.resize(to(x.pages.len()), fill),
            1 => x.rows.resize(to(x.rows.len()), fill as u32),
            2 => x.blocks.resize(to(x.blocks.len()), fill as u32),
            _ => x.table.resize(to(x.table.len()), fill),
        }
    }
}

type Change = fn(&mut Poke);

const CHANGES: [Change; 21] = [
    |p| p.any_element(), |p| p.header(), |p| p.header(), |p| p.entry_word(), |p| p.prefix(), |p| p.unused_entry(), |p| p.swap_words(),
    |p| p.copy_word(), |p| p.owners(), |p| p.rename(), |p| p.rename(), |p| p.swap_overflow(), |p| p.offset(), |p| p.swap_offsets(), |p| p.length(),
    |p| p.page_bit(), |p| p.page_words(), |p| p.block_count(), |p| p.drop_chunk(), |p| p.move_row(), |p| p.lengths(),
];

/// One to four changes, most often one, so that often one rule alone is broken.
pub fn poke(g: &mut Random, x: &mut Memory, z: Sizes) {
    for _ in 0..g.pick(&[1, 1, 1, 2, 2, 3, 4]) {
        let change = g.pick(&CHANGES);
        change(&mut Poke { g, x, z });
    }
}

/// A word of noise of one of three sorts: any, small, or one that looks like an entry's, an id or a count.
fn noise_word(g: &mut Random, sort: u64) -> u64 {
    match sort {
        0 => g.next() << 1 | g.below(2),
        1 => g.below(4),
        2 if g.below(3) > 0 => 0,
        _ => match g.below(4) {
            0 => 1 + 2048 * g.below(3) + g.below(4),
            1 => 0x1000_0000 + g.below(3),
            _ => g.below(6),
        },
    }
}

fn small_sizes(g: &mut Random) -> Sizes {
    let s = 9 + g.below(3) * g.below(2);
    Sizes { s, m: 1 + g.below(4), d: g.below(4), v: g.below(4), r: g.below(4), p: g.below(4) }
}

/// All four slices noise: of any lengths, or of those that a header asks for, or nearly; the rest may be zeros.
pub fn noise(g: &mut Random) -> Memory {
    let (z, sort, headed) = (small_sizes(g), g.below(4), g.below(4) > 0);
    let lengths = z.needs().map(|n| match g.below(12) {
        0 => 0,
        1 => g.below(40) as usize,
        2 => n.saturating_sub(1),
        _ if headed => n + g.below(3) as usize,
        _ => g.below(80) as usize,
    });
    let kept = g.below(3) as usize;
    let zeros = [(); 4].map(|()| g.one_in(3));
    let mut words = |k: usize| -> Vec<u64> { (0..lengths[k] + kept).map(|_| if zeros[k] { 0 } else { noise_word(g, sort) }).collect() };
    let [pages, rows, blocks, mut table] = [0, 1, 2, 3].map(&mut words);
    if headed {
        let header = [z.s, z.m, z.d, z.v, z.r, z.p, g.below(2) + g.below(20) / 19, g.below(z.v + 1)];
        table.iter_mut().zip(header).for_each(|(w, h)| *w = h);
        table.iter_mut().take(16).skip(8).for_each(|w| *w = if g.one_in(40) { g.next() } else { 0 });
    }
    let narrow = |t: Vec<u64>| t.into_iter().map(|w| w as u32).collect();
    Memory { pages, rows: narrow(rows), blocks: narrow(blocks), table, kept }
}

/// Memory as set-up leaves it, at sizes on both sides of each end of document 01's table of sizes: where they are outside, the first rule alone says so.
pub fn at_limits() -> Vec<(Sizes, Memory)> {
    let z = Sizes { s: 9, m: 1, d: 0, v: 0, r: 1, p: 0 };
    let mut all = vec![];
    all.extend([8, 9, 25, 26].map(|s| Sizes { s, ..z }));
    all.extend([0, 1, 1024, 1025].map(|m| Sizes { m, ..z }));
    all.extend([262_144, 262_145].map(|d| Sizes { d, ..z }));
    all.extend([65_536, 65_537].map(|v| Sizes { v, ..z }));
    all.extend([65_536, 65_537].map(|r| Sizes { r, ..z }));
    all.extend([65_536, 65_537].map(|p| Sizes { p, ..z }));
    all.into_iter().map(|z| (z, fresh(z))).collect()
}

fn fresh(z: Sizes) -> Memory {
    let kept = 1;
    let [pages, rows, blocks, table] = Sizes { s: z.s.clamp(9, 25), ..z }.needs().map(|n| n + kept);
    let mut table = vec![0; table];
    table[..6].copy_from_slice(&[z.s, z.m, z.d, z.v, z.r, z.p]);
    Memory { pages: vec![0; pages], rows: vec![0; rows], blocks: vec![0; blocks], table, kept }
}
