//! Memory that the bench lends to the library, as long as the sizes want it. Its calls are those of oracle/calls.rs.
pub use brothpillow::Sizes;
use brothpillow::sys::Done;
use brothpillow::{Memory as _, MemoryMut as _, Owned, Slices, SlicesMut};

pub const DONE: Done = Done { refusal: 0 };

pub struct Memory(Owned);

impl Memory {
    /// An empty set.
    pub fn new(z: Sizes) -> Memory {
        let mut x = Memory(Owned::zeroed(z.lengths().expect("sizes that are allowed")));
        assert_eq!(x.bp_set_up(z), DONE);
        x
    }

    #[inline]
    pub fn slices(&self) -> Slices<'_> {
        self.0.slices()
    }

    #[inline]
    pub fn slices_mut(&mut self) -> SlicesMut<'_> {
        self.0.slices_mut()
    }
}
