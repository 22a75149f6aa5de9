//! The four slices that hold a set, lent or owned.
use crate::sizes::Lengths;
use std::fmt;

/// The four slices of a set, lent to be read.
///
/// Copying all four copies the set; so they can be written to a file and read back by a machine with the same byte order.
#[derive(Clone, Copy)]
pub struct Slices<'a> {
    /// Bit maps of dense chunks.
    pub pages: &'a [u64],
    /// Sorted lists of sparse chunks.
    pub rows: &'a [u32],
    /// Counts of a ranked set's pages, by blocks of eight words.
    pub blocks: &'a [u32],
    /// Sizes, entries and owners.
    pub table: &'a [u64],
}

/// The four slices of a set, lent to be changed.
pub struct SlicesMut<'a> {
    /// Bit maps of dense chunks.
    pub pages: &'a mut [u64],
    /// Sorted lists of sparse chunks.
    pub rows: &'a mut [u32],
    /// Counts of a ranked set's pages, by blocks of eight words.
    pub blocks: &'a mut [u32],
    /// Sizes, entries and owners.
    pub table: &'a mut [u64],
}

/// Memory of a set's own.
#[derive(Clone)]
pub struct Owned {
    pages: Vec<u64>,
    rows: Vec<u32>,
    blocks: Vec<u32>,
    table: Vec<u64>,
}

impl Owned {
    /// Slices of these lengths, full of zeros. As with a `Vec`, the process ends where there is no such memory.
    pub fn zeroed(lengths: Lengths) -> Owned {
        Owned {
            pages: vec![0; lengths.pages],
            rows: vec![0; lengths.rows],
            blocks: vec![0; lengths.blocks],
            table: vec![0; lengths.table],
        }
    }
}

/// Memory that a set can be read from. What the slices hold is never trusted, so any type may be one.
pub trait Memory {
    /// The four slices.
    fn slices(&self) -> Slices<'_>;
}

/// Memory that a set can be changed in.
pub trait MemoryMut: Memory {
    /// The four slices.
    fn slices_mut(&mut self) -> SlicesMut<'_>;
}

impl Memory for Slices<'_> {
    #[inline]
    fn slices(&self) -> Slices<'_> {
        *self
    }
}

impl Memory for SlicesMut<'_> {
    #[inline]
    fn slices(&self) -> Slices<'_> {
        Slices { pages: self.pages, rows: self.rows, blocks: self.blocks, table: self.table }
    }
}

impl MemoryMut for SlicesMut<'_> {
    #[inline]
    fn slices_mut(&mut self) -> SlicesMut<'_> {
        SlicesMut { pages: self.pages, rows: self.rows, blocks: self.blocks, table: self.table }
    }
}

impl Memory for Owned {
    #[inline]
    fn slices(&self) -> Slices<'_> {
        Slices { pages: &self.pages, rows: &self.rows, blocks: &self.blocks, table: &self.table }
    }
}

impl MemoryMut for Owned {
    #[inline]
    fn slices_mut(&mut self) -> SlicesMut<'_> {
        SlicesMut { pages: &mut self.pages, rows: &mut self.rows, blocks: &mut self.blocks, table: &mut self.table }
    }
}

impl<M: Memory> Memory for &M {
    #[inline]
    fn slices(&self) -> Slices<'_> {
        (**self).slices()
    }
}

impl<M: Memory> Memory for &mut M {
    #[inline]
    fn slices(&self) -> Slices<'_> {
        (**self).slices()
    }
}

impl<M: MemoryMut> MemoryMut for &mut M {
    #[inline]
    fn slices_mut(&mut self) -> SlicesMut<'_> {
        (**self).slices_mut()
    }
}

/// Lengths alone: what the slices hold may be gigabytes.
fn lengths(name: &str, x: Slices<'_>, f: &mut fmt::Formatter<'_>) -> fmt::Result {
    f.debug_struct(name)
        .field("pages", &x.pages.len())
        .field("rows", &x.rows.len())
        .field("blocks", &x.blocks.len())
        .field("table", &x.table.len())
        .finish()
}

impl fmt::Debug for Slices<'_> {
    fn fmt(&self, f: &mut fmt::Formatter<'_>) -> fmt::Result {
        lengths("Slices", *self, f)
    }
}

impl fmt::Debug for SlicesMut<'_> {
    fn fmt(&self, f: &mut fmt::Formatter<'_>) -> fmt::Result {
        lengths("SlicesMut", self.slices(), f)
    }
}

impl fmt::Debug for Owned {
    fn fmt(&self, f: &mut fmt::Formatter<'_>) -> fmt::Result {
        lengths("Owned", self.slices(), f)
    }
}
