//! Memory that is lent to the library, full of marks at first, and how long the sizes of a set want it.
pub use brothpillow::Sizes;
pub use brothpillow::sys::{Done, Inserted, Listing, Number, Optional, Truth};
use brothpillow::{Slices, SlicesMut};

pub const DONE: Done = Done { refusal: 0 };

pub trait Needs {
    /// The least lengths of pages, rows, block counts and table; sizes have to be in document 01's table.
    fn needs(self) -> [usize; 4];
}

impl Needs for Sizes {
    fn needs(self) -> [usize; 4] {
        let z = self;
        [z.p << (z.s - 6), z.r * z.m, z.p << (z.s - 9), 16 + 2 * z.d + 3 * z.v + z.r + z.p].map(|n| n as usize)
    }
}

/// Elements past the sizes, never to be written.
const SPARE: usize = 3;
const MARK: u32 = 0x5a5a_5a5a;

/// The last `kept` elements of each are not lent: no call may touch them, whatever memory holds.
#[derive(PartialEq)]
pub struct Memory {
    pub pages: Vec<u64>,
    pub rows: Vec<u32>,
    pub blocks: Vec<u32>,
    pub table: Vec<u64>,
    pub kept: usize,
}

/// A copy into memory that is there already takes its place without a new allocation.
impl Clone for Memory {
    fn clone(&self) -> Memory {
        let mut copy = Memory::marked([0; 4]);
        copy.clone_from(self);
        copy
    }

    fn clone_from(&mut self, from: &Memory) {
        self.pages.clone_from(&from.pages);
        self.rows.clone_from(&from.rows);
        self.blocks.clone_from(&from.blocks);
        self.table.clone_from(&from.table);
        self.kept = from.kept;
    }
}

impl Memory {
    /// Memory of these lengths, full of marks.
    pub fn marked([pages, rows, blocks, table]: [usize; 4]) -> Memory {
        Memory {
            pages: vec![MARK.into(); pages],
            rows: vec![MARK; rows],
            blocks: vec![MARK; blocks],
            table: vec![MARK.into(); table],
            kept: 0,
        }
    }

    /// Memory full of marks, set up.
    pub fn new(z: Sizes) -> Memory {
        let mut x = Memory::marked(z.needs().map(|n| n + SPARE));
        assert_eq!(x.bp_set_up(z), DONE);
        x
    }

    /// Whether the elements from these on hold their marks.
    pub fn marked_from(&self, [pages, rows, blocks, table]: [usize; 4]) -> bool {
        let end64 = |t: &[u64]| t.iter().all(|&w| w == u64::from(MARK));
        let end32 = |t: &[u32]| t.iter().all(|&w| w == MARK);
        end64(&self.pages[pages..]) && end32(&self.rows[rows..]) && end32(&self.blocks[blocks..]) && end64(&self.table[table..])
    }

    /// How many elements of each are lent.
    pub fn lent(&self) -> [usize; 4] {
        [self.pages.len(), self.rows.len(), self.blocks.len(), self.table.len()].map(|n| n - self.kept)
    }

    pub fn slices(&self) -> Slices<'_> {
        let [pages, rows, blocks, table] = self.lent();
        Slices { pages: &self.pages[..pages], rows: &self.rows[..rows], blocks: &self.blocks[..blocks], table: &self.table[..table] }
    }

    pub fn slices_mut(&mut self) -> SlicesMut<'_> {
        let [pages, rows, blocks, table] = self.lent();
        SlicesMut {
            pages: &mut self.pages[..pages],
            rows: &mut self.rows[..rows],
            blocks: &mut self.blocks[..blocks],
            table: &mut self.table[..table],
        }
    }
}
