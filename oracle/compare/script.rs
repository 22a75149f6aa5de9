//! Sequences of calls on two sets: each call goes to the Rust's side for its answer, then to the library for comparison.
use crate::call::{Call, Ids, Ranges, Record, Said, Sizes};
use crate::rust::{BOUNDARIES, Side};
use crate::tally::Tally;

/// A way to reach the library.
pub trait Way {
    /// How long the slices are that it lends, for these sizes.
    fn lends(&self, z: Sizes) -> [usize; 4];
    /// Whether it lends lows, highs and marks as three lists, which may be of unequal length.
    fn lends_lists(&self) -> bool {
        false
    }
    /// A new sequence begins. Whether it does so on memory in which there are no sets yet.
    fn begin(&mut self) -> bool;
    /// This call on set k has to answer so.
    fn call(&mut self, k: usize, call: &Call, wanted: &Said);
    /// The sequence ends: whatever was not compared yet is.
    fn end(&mut self);
}

pub struct Random(u64);

impl Random {
    pub fn new(seed: u64) -> Random {
        Random(seed.wrapping_mul(0x9e37_79b9_7f4a_7c15) | 1)
    }

    pub fn next(&mut self) -> u64 {
        self.0 ^= self.0 << 13;
        self.0 ^= self.0 >> 7;
        self.0 ^= self.0 << 17;
        self.0
    }

    pub fn below(&mut self, n: u64) -> u64 {
        self.next() % n
    }

    pub fn one_in(&mut self, n: u64) -> bool {
        self.below(n) == 0
    }

    pub fn one_of<T: Copy>(&mut self, some: &[T]) -> T {
        some[self.below(some.len() as u64) as usize]
    }

    /// Ids around every edge: negatives, chunk ends, the ends of i64, the last direct chunk, and members close together.
    pub fn id(&mut self, z: Sizes, spread: u64) -> i64 {
        let chunk = 1u64 << z.s;
        let at = match self.below(24) {
            0 => return -(self.below(5) as i64) - 1,
            1 => return i64::MAX - self.below(chunk + 5) as i64,
            2 => return i64::MIN,
            3 => self.below(8) * chunk,
            4 => self.below(8) * chunk + chunk - 1,
            5 => (z.d + self.below(3)) * chunk + self.below(9),
            6 => z.d.saturating_sub(1) * chunk + self.below(9),
            _ => self.below(spread),
        };
        at as i64
    }

    /// Sizes to set up with: often those asked for, else smaller ones, or with one number at or past an edge. The Rust answers the same for every D, V, R and P.
    fn sizes(&mut self, z: Sizes) -> Sizes {
        let mut z = z;
        match self.below(24) {
            0 => z.s = self.one_of(&[0, 8, 26, 64, u64::MAX]),
            1 => z.m = self.one_of(&[0, 1025, u64::MAX]),
            2 => z.d = self.one_of(&[0, z.d + 1, 262_145, u64::MAX]),
            3 => z.v = self.one_of(&[0, z.v + 1, 65_536, 65_537, u64::MAX]),
            4 => z.r = self.one_of(&[0, z.r + 1, 65_536, 65_537, u64::MAX]),
            5 => z.p = self.one_of(&[0, z.p + 1, 65_536, 65_537, u64::MAX]),
            6..=11 => {
                for n in [&mut z.d, &mut z.v, &mut z.r, &mut z.p] {
                    *n = self.below(*n + 1);
                }
            }
            _ => {}
        }
        z
    }
}

pub struct Script<'a> {
    pub way: &'a mut dyn Way,
    pub random: Random,
    pub tally: Tally,
    pub sizes: Sizes,
    /// Sizes are held: every set-up is one with those asked for.
    held: bool,
    /// Where the last bursts began: with a direct entry, with an overflow entry.
    near: [u64; 2],
    pub sides: [Side; 2],
}

impl<'a> Script<'a> {
    pub fn new(way: &'a mut dyn Way, sizes: Sizes, held: bool, seed: u64) -> Script<'a> {
        let lent = way.lends(sizes);
        Script { way, random: Random::new(seed), tally: Tally::default(), sizes, held, near: [0; 2], sides: [Side::new(lent), Side::new(lent)] }
    }

    pub fn begin(&mut self) -> bool {
        let fresh = self.way.begin();
        if fresh {
            let lent = self.way.lends(self.sizes);
            self.sides = [Side::new(lent), Side::new(lent)];
        }
        self.tally.sequences += 1;
        fresh
    }

    pub fn say(&mut self, k: usize, call: Call) -> Said {
        let [side, other] = self.sides.get_disjoint_mut([k, 1 - k]).expect("two sides");
        let wanted = side.answer(&call, other, &mut self.tally);
        self.way.call(k, &call, &wanted);
        self.tally.calls += 1;
        if let Some(c) = wanted.refusal() {
            self.tally.refusals[c as usize] += 1;
        }
        wanted
    }

    pub fn set_up(&mut self, k: usize) {
        loop {
            let z = if self.held { self.sizes } else { self.random.sizes(self.sizes) };
            if self.say(k, Call::SetUp(z)) == Said::Ok {
                return;
            }
        }
    }

    fn read(&mut self, k: usize, id: i64) -> Said {
        let any = self.range(id);
        let call = self.random.one_of(&[Call::Get(id), Call::Get(id), any, any, Call::Chunk(id), Call::Iter(id), Call::Len, Call::Empty, Call::Has, Call::Chunks]);
        self.say(k, call)
    }

    /// A range that begins or ends at an id: of one id, up to a chunk away, to an end of i64, or to any other edge, at times the wrong way round.
    fn range(&mut self, id: i64) -> Call {
        let (z, g) = (self.sizes, &mut self.random);
        let other = match g.below(8) {
            0 => id,
            1 => i64::MIN,
            2 => i64::MAX,
            3 => id.saturating_add(g.below(2 << z.s) as i64),
            4 => id.saturating_sub(g.below(2 << z.s) as i64),
            _ => g.id(z, 4 << z.s),
        };
        if g.one_in(8) { Call::Any(id.max(other), id.min(other)) } else { Call::Any(id.min(other), id.max(other)) }
    }

    /// Records from a start that leaves 63, 64 or 65 members, or any start, each from where the last one said.
    fn iterate(&mut self, k: usize, id: i64) {
        let left = 63 + self.random.below(3) as usize;
        let near = self.sides[k].from_end(left).unwrap_or(id);
        let mut start = self.random.one_of(&[id, near, near]);
        for _ in 0..4 {
            let Said::Listed { end: false, next, .. } = self.say(k, Call::Iter(start)) else { return };
            start = next;
        }
    }

    /// A burst of m - 1, m or m + 1 members into a chunk that is likely to be there: a low one, the last direct one, or one of the first with an overflow entry.
    fn some_burst(&mut self, k: usize) {
        let (d, g) = (self.sizes.d, &mut self.random);
        let chunk = match g.below(4) {
            0 => d.saturating_sub(1),
            1 => d + g.below(3),
            _ => g.below(d.min(4) + 1),
        };
        let members = (self.sizes.m + g.below(3)).saturating_sub(1);
        self.burst(k, chunk, members);
    }

    /// So many offsets close together, anywhere in the chunk; few of them once they are refused.
    fn burst(&mut self, k: usize, chunk: u64, members: u64) {
        let first = self.random.below((1 << self.sizes.s) / 2);
        let step = 1 + self.random.below(3);
        self.near[usize::from(chunk >= self.sizes.d)] = (chunk << self.sizes.s) + first;
        let mut refused = 0;
        for i in 0..members {
            let said = self.say(k, Call::New(((chunk << self.sizes.s) + (first + i * step) % (1 << self.sizes.s)) as i64));
            refused += u64::from(said.refusal().is_some());
            if refused == 9 {
                return;
            }
        }
    }

    /// An id around an edge, or among those of the last bursts.
    pub fn id(&mut self, spread: u64) -> i64 {
        let g = &mut self.random;
        if g.one_in(6) {
            return (g.one_of(&self.near) + g.below(3 * self.sizes.m)) as i64;
        }
        g.id(self.sizes, spread + 9)
    }

    /// A call on an open set.
    fn grow(&mut self, k: usize, id: i64) {
        let max = if self.random.one_in(4) { id } else { self.random.below(3 << self.sizes.s) as i64 };
        match self.random.below(100) {
            0..=59 => self.say(k, Call::New(id)),
            60..=66 => self.say(k, Call::Set(id)),
            67..=76 => self.say(k, Call::Put(id)),
            77..=79 => self.say(k, Call::Prepare(max)),
            80 => self.say(k, Call::Rank(id)),
            81 => self.say(k, Call::RankIf(id)),
            82 => self.say(k, Call::Total),
            83 => self.say(k, Call::Open),
            84 => self.say(k, Call::Plan { slots: id as u64, room: 9 }),
            85 => self.say(k, Call::RankUp),
            86 => return self.some_burst(k),
            _ => self.read(k, id),
        };
    }

    /// A call on a ranked set.
    fn ask(&mut self, k: usize, id: i64) {
        match self.random.below(100) {
            0..=39 => self.say(k, Call::Rank(id)),
            40..=64 => self.say(k, Call::RankIf(id)),
            65..=66 => self.say(k, Call::Total),
            67 => self.say(k, Call::New(id)),
            68 => self.say(k, Call::Set(id)),
            69 => self.say(k, Call::Put(id)),
            70 => self.say(k, Call::Prepare(id)),
            71 => self.say(k, Call::RankUp),
            72..=77 => return self.plan(k),
            78..=82 => return self.part(k),
            83..=85 => self.say(k, Call::Open),
            _ => self.read(k, id),
        };
    }

    /// A plan with few or many partitions, at times with one boundary too many for the room, and all its partitions; ranges are held against one of them.
    fn plan(&mut self, k: usize) {
        let Said::Number(total) = self.say(k, Call::Total) else { return };
        let g = &mut self.random;
        let slots = match g.below(6) {
            0 => 0,
            1 => g.next(),
            2 => total,
            3 => total.saturating_sub(1),
            4 => total + 1,
            _ => 1 + g.below(total + 2),
        };
        let needed = total.div_ceil(slots.max(1)).max(1) - 1;
        let room = match g.below(4) {
            0 => needed,
            1 => needed.saturating_sub(1),
            _ => BOUNDARIES as u64,
        };
        let room = room.min(BOUNDARIES as u64);
        if let Said::Planned(record, _) = self.say(k, Call::Plan { slots, room }) {
            for part in 0..=record.partitions.min(12) {
                self.say(k, Call::Part { record, room, k: part });
            }
            let part = self.random.below(record.partitions + 1);
            self.meet(k, record, room, part);
        }
    }

    /// A partition of the last plan's record, or of one that is a little off, and ranges held against it.
    fn part(&mut self, k: usize) {
        let Some(mut record) = self.sides[k].last_plan() else { return };
        let g = &mut self.random;
        let room = g.one_of(&[BOUNDARIES as u64, record.partitions - 1, record.partitions.saturating_sub(2)]).min(BOUNDARIES as u64);
        match g.below(8) {
            0 => record.slots = 0,
            1 => record.partitions = g.one_of(&[0, 1, record.partitions + 1, u64::MAX]),
            2 => record = Record { total: record.total + 1, ..record },
            3 => record = Record { total: u64::MAX, slots: u64::MAX, partitions: 1 },
            4 => record = Record { total: u64::MAX, slots: 1, partitions: u64::MAX },
            _ => {}
        }
        let part = g.one_of(&[0, 1, record.partitions.wrapping_sub(1), record.partitions, u64::MAX]);
        self.say(k, Call::Part { record, room, k: part });
        self.meet(k, record, room, part);
    }

    fn pure(&mut self) {
        let g = &mut self.random;
        let any = |g: &mut Random| g.next() >> g.below(64);
        let (b, length, per) = (any(g), any(g), any(g));
        let claim = any(g) as i64;
        self.say(0, Call::Slots(b));
        self.say(0, Call::Bounded(claim, length, per));
    }

    /// Calls on memory in which there are no sets yet.
    fn not_set_up(&mut self) {
        for call in [Call::Check, Call::New(0), Call::Put(0), Call::Prepare(0), Call::RankUp, Call::Open, Call::Rank(0), Call::RankIf(0), Call::Total] {
            self.say(0, call);
        }
        self.say(1, Call::Plan { slots: 1, room: 1 });
        (0..9).for_each(|id| _ = self.read(1, id));
        self.say(1, Call::Any(0, 0));
        self.say(1, Call::Iter(0));
        self.say(1, Call::Mark(Ranges::new(&[(0, 0), (1, 0)], [0; 3])));
        let ids = Ids::new(&[0, 1, -1], [0; 2]);
        for call in [Call::GetAll, Call::RankAll, Call::RankIfAll, Call::InsertAll] {
            self.say(1, call(ids));
        }
        self.say(1, Call::From);
    }

    /// A random sequence of about so many calls: mostly on set 0, with set 1 between.
    pub fn random_sequence(&mut self, length: u64) {
        let fresh = self.begin();
        if fresh {
            self.not_set_up();
        }
        let spread = ((1 << self.sizes.s) * (1 + self.random.below(6)) / (1 + self.random.below(40))).max(1);
        self.set_up(0);
        if fresh {
            self.say(0, Call::From);
            self.say(1, Call::Merge);
        }
        self.set_up(1);
        if self.held {
            // one promotion of each sort, whatever comes then
            self.burst(0, self.sizes.d - 1, self.sizes.m + 1);
            self.burst(0, self.sizes.d, self.sizes.m + 1);
        }
        for _ in 0..self.random.below(length) {
            let k = usize::from(self.random.one_in(6));
            let id = self.id(spread);
            match self.random.below(400) {
                0 => self.pure(),
                1 if !self.held => self.set_up(k),
                2 => _ = self.say(k, Call::Check),
                3..=5 => self.iterate(k, id),
                6..=13 => self.unite(k),
                14..=17 => self.mark(k),
                18..=25 => self.many(k),
                _ if self.sides[k].is_ranked() => self.ask(k, id),
                _ => self.grow(k, id),
            }
        }
        for k in 0..2 {
            self.close(k, spread);
        }
        if self.random.one_in(4) {
            let k = self.random.below(2) as usize;
            self.other_shape(k);
        }
        self.way.end();
    }

    /// Both forms once more, to the end.
    fn close(&mut self, k: usize, spread: u64) {
        self.say(k, Call::Check);
        self.say(k, Call::RankUp);
        self.say(k, Call::Check);
        for _ in 0..9 {
            let id = self.id(spread);
            self.ask(k, id);
        }
        self.plan(k);
        self.say(k, Call::Open);
        self.say(k, Call::Len);
    }
}
