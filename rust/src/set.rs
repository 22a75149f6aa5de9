//! The set.
use crate::iter::Iter;
use crate::memory::{Memory, MemoryMut, Owned, Slices};
use crate::plan::Plan;
use crate::ranges::RangeList;
use crate::refusal::Refusal;
use crate::sizes::Sizes;
use crate::sys::{self, Done, Number, Optional, Truth};
use std::ops::RangeBounds;

/// A set of ids of 0 or more, open or ranked, in memory that it owns or is lent.
///
/// [`Set::new`] takes memory of its own. [`Set::set_up`] makes a set in lent memory, and [`Set::over`] takes memory as it
/// stands, to be read alone where it is lent so.
///
/// ```
/// use brothpillow::{Refusal, Set, Sizes, Slices, SlicesMut};
///
/// let sizes = Sizes { s: 12, m: 64, d: 16, v: 0, r: 32, p: 16 };
/// let need = sizes.lengths()?;
/// let (mut pages, mut rows) = (vec![0; need.pages], vec![0; need.rows]);
/// let (mut blocks, mut table) = (vec![0; need.blocks], vec![0; need.table]);
///
/// let lent = SlicesMut { pages: &mut pages, rows: &mut rows, blocks: &mut blocks, table: &mut table };
/// let mut set = Set::set_up(lent, sizes)?;
/// assert_eq!(set.set_if_new(5), Ok(true));
///
/// let again = Set::over(Slices { pages: &pages, rows: &rows, blocks: &blocks, table: &table });
/// assert!(again.check());
/// assert_eq!(again.get(5), Ok(true));
/// # Ok::<(), Refusal>(())
/// ```
///
/// Calls that read take `&self` and may run side by side; a call that changes the set takes `&mut self`. Every call is
/// one of the library's, and what it answers is proved; `docs/CALLS.md` has each with its refusals and cost.
#[derive(Clone, Debug)]
pub struct Set<M = Owned> {
    memory: M,
}

/// What [`Set::rank_if_set_all`] says of an id that is no member; no rank is that large.
pub const NO_RANK: u64 = u64::MAX;

/// How far [`Set::insert_all`] came.
#[derive(Clone, Copy, Debug, PartialEq, Eq)]
#[must_use = "ids behind one that was refused are not inserted"]
pub struct Inserted {
    /// How many ids were taken, from the first on.
    pub taken: u64,
    /// How many of them were new.
    pub fresh: u64,
    /// Why the next id was refused, if there is one.
    pub refusal: Option<Refusal>,
}

impl Inserted {
    /// How many were new, where all were taken.
    pub fn all(self) -> Result<u64, Refusal> {
        self.refusal.map_or(Ok(self.fresh), Err)
    }
}

impl Done {
    #[inline]
    fn result(self) -> Result<(), Refusal> {
        Refusal::unless_zero(self.refusal)
    }
}

impl Truth {
    #[inline]
    fn result(self) -> Result<bool, Refusal> {
        Refusal::unless_zero(self.refusal).map(|()| self.yes)
    }
}

impl Number {
    #[inline]
    fn result(self) -> Result<u64, Refusal> {
        Refusal::unless_zero(self.refusal).map(|()| self.value)
    }
}

impl Optional {
    #[inline]
    fn result(self) -> Result<Option<u64>, Refusal> {
        Refusal::unless_zero(self.refusal).map(|()| self.has.then_some(self.value))
    }
}

impl Set {
    /// An empty open set in memory of its own. Refused with 1 for sizes that are not allowed.
    ///
    /// As with a `Vec`, the process ends where there is no such memory; [`Sizes::bytes`] says how much it is.
    pub fn new(sizes: Sizes) -> Result<Set, Refusal> {
        Set::set_up(Owned::zeroed(sizes.lengths()?), sizes)
    }
}

/// Making a set.
impl<M> Set<M> {
    /// A set over memory as it stands. Nothing is looked at: [`check`](Set::check) says whether it is a set, and without
    /// it, too, every call is defined.
    pub fn over(memory: M) -> Set<M> {
        Set { memory }
    }

    /// The memory, as the set left it.
    pub fn into_memory(self) -> M {
        self.memory
    }
}

/// Calls that read: of an open and of a ranked set.
impl<M: Memory> Set<M> {
    /// The four slices. A copy of all four is a copy of the set.
    #[inline]
    pub fn slices(&self) -> Slices<'_> {
        self.memory.slices()
    }

    /// The full check: whether memory follows the layout. Where set-up made it and only calls touched it, it does.
    pub fn check(&self) -> bool {
        sys::check(self.slices())
    }

    /// Whether the id is a member.
    #[inline]
    pub fn get(&self, id: i64) -> Result<bool, Refusal> {
        sys::get(self.slices(), id).result()
    }

    /// Whether a member lies in `min` to `max`, both included.
    #[inline]
    pub fn any_in_range(&self, min: i64, max: i64) -> Result<bool, Refusal> {
        sys::any_in_range(self.slices(), min, max).result()
    }

    /// The number of the id's chunk; none for a negative id.
    pub fn chunk_of(&self, id: i64) -> Result<Option<u64>, Refusal> {
        sys::chunk_of(self.slices(), id).result()
    }

    /// How many members there are, counted. Of a ranked set [`total_count`](Set::total_count) has it ready.
    pub fn len(&self) -> Result<u64, Refusal> {
        sys::len(self.slices()).result()
    }

    /// Whether there is no member.
    pub fn is_empty(&self) -> Result<bool, Refusal> {
        sys::is_empty(self.slices()).result()
    }

    /// Whether there is a chunk, be it an empty one.
    pub fn has_any(&self) -> Result<bool, Refusal> {
        sys::has_any(self.slices()).result()
    }

    /// How many chunks there are, empty ones too.
    pub fn allocated_chunk_count(&self) -> Result<u64, Refusal> {
        sys::allocated_chunk_count(self.slices()).result()
    }

    /// Whether each of these ids is a member, 1 or 0, as single calls one after the other would say it, and faster. As
    /// many answers are written as the shorter of the two lists has; a refusal writes none.
    ///
    /// ```
    /// use brothpillow::{Refusal, Set, Sizes};
    ///
    /// let mut set = Set::new(Sizes { s: 9, m: 4, d: 2, v: 0, r: 2, p: 0 })?;
    /// set.insert_all(&[5, 600]).all()?;
    /// let mut answers = [0; 3];
    /// set.get_all(&[600, 7, -1], &mut answers)?;
    /// assert_eq!(answers, [1, 0, 0]);
    /// # Ok::<(), Refusal>(())
    /// ```
    pub fn get_all(&self, ids: &[i64], answers: &mut [u8]) -> Result<(), Refusal> {
        sys::get_all(ids, answers, self.slices()).result()
    }

    /// All members, ascending.
    ///
    /// ```
    /// use brothpillow::{Refusal, Set, Sizes};
    ///
    /// let mut set = Set::new(Sizes { s: 9, m: 4, d: 2, v: 0, r: 2, p: 0 })?;
    /// for id in [600, 3, 5] {
    ///     set.set(id)?;
    /// }
    /// let ids = set.iter().collect::<Result<Vec<i64>, Refusal>>()?;
    /// assert_eq!(ids, [3, 5, 600]);
    /// for id in &set {
    ///     assert_eq!(set.get(id?), Ok(true));
    /// }
    /// # Ok::<(), Refusal>(())
    /// ```
    pub fn iter(&self) -> Iter<'_> {
        Iter::new(self.slices(), ..)
    }

    /// The members in a range of ids, ascending; none where its ends are the wrong way round.
    ///
    /// ```
    /// use brothpillow::{Refusal, Set, Sizes};
    ///
    /// let mut set = Set::new(Sizes { s: 9, m: 4, d: 2, v: 0, r: 2, p: 0 })?;
    /// for id in [3, 5, 600] {
    ///     set.set(id)?;
    /// }
    /// let ids = set.range(4..=600).collect::<Result<Vec<i64>, Refusal>>()?;
    /// assert_eq!(ids, [5, 600]);
    /// # Ok::<(), Refusal>(())
    /// ```
    pub fn range(&self, range: impl RangeBounds<i64>) -> Iter<'_> {
        Iter::new(self.slices(), range)
    }

    /// Marks each range that has a member, and clears the other marks.
    ///
    /// ```
    /// use brothpillow::{RangeList, Refusal, Set, Sizes};
    ///
    /// let mut set = Set::new(Sizes { s: 9, m: 4, d: 2, v: 0, r: 2, p: 0 })?;
    /// set.set(5)?;
    /// let mut blocks = RangeList::from_iter([(0, 4), (5, 9)]);
    /// set.mark_by_range(&mut blocks)?;
    /// assert_eq!(blocks.marked().collect::<Vec<_>>(), [(5, 9)]);
    /// # Ok::<(), Refusal>(())
    /// ```
    pub fn mark_by_range(&self, list: &mut RangeList) -> Result<(), Refusal> {
        let (lows, highs, marks) = list.parts();
        sys::mark_ends_by_range(lows, highs, marks, self.slices()).result()
    }
}

/// Calls on a ranked set; an open one refuses them with 5.
impl<M: Memory> Set<M> {
    /// How many members lie below the id: 0 for an id of 0 or less.
    #[inline]
    pub fn rank(&self, id: i64) -> Result<u64, Refusal> {
        sys::rank(self.slices(), id).result()
    }

    /// The rank of a member; none for any other id.
    #[inline]
    pub fn rank_if_set(&self, id: i64) -> Result<Option<u64>, Refusal> {
        sys::rank_if_set(self.slices(), id).result()
    }

    /// The rank of each of these ids, as many as the shorter of the two lists has; a refusal writes none.
    pub fn rank_all(&self, ids: &[i64], ranks: &mut [u64]) -> Result<(), Refusal> {
        sys::rank_all(ids, ranks, self.slices()).result()
    }

    /// The rank of each member among these ids, and [`NO_RANK`] for any other.
    pub fn rank_if_set_all(&self, ids: &[i64], ranks: &mut [u64]) -> Result<(), Refusal> {
        sys::rank_if_set_all(ids, ranks, self.slices()).result()
    }

    /// How many members there are.
    pub fn total_count(&self) -> Result<u64, Refusal> {
        sys::total_count(self.slices()).result()
    }

    /// Cuts the set into partitions of at most `slots` members; 0 is read as 1.
    ///
    /// Takes memory for as many boundaries as the set says that there are: where memory may have been spoiled,
    /// [`plan_within`](Set::plan_within) says how many at most.
    pub fn plan(&self, slots: u64) -> Result<Plan, Refusal> {
        self.plan_within(slots, usize::MAX)
    }

    /// The same with room for so many boundaries: refused with 11 where partitions minus 1 is more, or where there is
    /// no memory for them.
    pub fn plan_within(&self, slots: u64, room: usize) -> Result<Plan, Refusal> {
        let needed = self.total_count()?.saturating_sub(1) / slots.max(1);
        let room = usize::try_from(needed).unwrap_or(usize::MAX).min(room);
        let mut boundaries = Vec::new();
        // where there is no memory for them there is room for none, and planning says what that means
        if boundaries.try_reserve_exact(room).is_ok() {
            boundaries.resize(room, 0);
        }
        let made = sys::plan(self.slices(), slots, &mut boundaries);
        Refusal::unless_zero(made.refusal)?;
        Plan::from_parts(made.total, made.slots, made.partitions, boundaries)
    }
}

/// Calls that change a set; a ranked one refuses all but [`into_open`](Set::into_open) with 4.
impl<M: MemoryMut> Set<M> {
    /// Makes an empty open set in this memory, whatever it held. Refused with 1 for sizes that are not allowed and with 2
    /// for a slice that is too short.
    pub fn set_up(mut memory: M, sizes: Sizes) -> Result<Set<M>, Refusal> {
        sys::set_up(sizes, memory.slices_mut()).result()?;
        Ok(Set { memory })
    }

    /// Inserts the id. A negative one changes nothing.
    #[inline]
    pub fn set(&mut self, id: i64) -> Result<(), Refusal> {
        sys::set(self.memory.slices_mut(), id).result()
    }

    /// Inserts the id and says whether it is new; a negative one is not.
    #[inline]
    pub fn set_if_new(&mut self, id: i64) -> Result<bool, Refusal> {
        sys::set_if_new(self.memory.slices_mut(), id).result()
    }

    /// Inserts ids in turn, up to the first that is refused; those before it stay in the set.
    pub fn insert_all(&mut self, ids: &[i64]) -> Inserted {
        let sys::Inserted { taken, fresh, stop } = sys::insert_all(ids, self.memory.slices_mut());
        Inserted { taken, fresh, refusal: Refusal::unless_zero(stop).err() }
    }

    /// Inserts the id into a chunk that is dense already and says whether it is new; refused with 9 where it is not.
    #[inline]
    pub fn set_prepared(&mut self, id: i64) -> Result<bool, Refusal> {
        sys::set_prepared(self.memory.slices_mut(), id).result()
    }

    /// Makes every chunk from 0 to the maximum's dense. A negative maximum changes nothing.
    pub fn pre_allocate(&mut self, max: i64) -> Result<(), Refusal> {
        sys::pre_allocate(self.memory.slices_mut(), max).result()
    }

    /// Union: this set gets the other one's members. The other one may be ranked.
    ///
    /// ```
    /// use brothpillow::{Refusal, Set, Sizes};
    ///
    /// let sizes = Sizes { s: 9, m: 4, d: 2, v: 1, r: 2, p: 1 };
    /// let (mut one, mut other) = (Set::new(sizes)?, Set::new(sizes)?);
    /// one.set(0)?;
    /// other.set(7)?;
    /// one.merge_from(&other)?;
    /// assert_eq!((one.len(), other.len()), (Ok(2), Ok(1)));
    /// one.merge(&mut other)?;
    /// assert_eq!((one.len(), other.len()), (Ok(2), Ok(0)));
    /// # Ok::<(), Refusal>(())
    /// ```
    pub fn merge_from<N: Memory>(&mut self, from: &Set<N>) -> Result<(), Refusal> {
        sys::merge_from(self.memory.slices_mut(), from.slices()).result()
    }

    /// Union: this set gets the other one's members, and the other one is then empty and open.
    pub fn merge<N: MemoryMut>(&mut self, from: &mut Set<N>) -> Result<(), Refusal> {
        sys::merge(self.memory.slices_mut(), from.memory.slices_mut()).result()
    }

    /// Makes the counts for ranks: the set is ranked then, in the same memory.
    #[allow(clippy::wrong_self_convention)] // document 01's name
    pub fn into_ranked(&mut self) -> Result<(), Refusal> {
        sys::into_ranked(self.memory.slices_mut()).result()
    }

    /// Leaves the ranked form: the set is open then, in the same memory. Refused with 5 of an open set.
    #[allow(clippy::wrong_self_convention)] // beside into_ranked
    pub fn into_open(&mut self) -> Result<(), Refusal> {
        sys::into_open(self.memory.slices_mut()).result()
    }
}

impl<'a, M: Memory> IntoIterator for &'a Set<M> {
    type Item = Result<i64, Refusal>;
    type IntoIter = Iter<'a>;

    fn into_iter(self) -> Iter<'a> {
        self.iter()
    }
}
