//! Unions in random sequences.
use crate::call::{Call, Sizes};
use crate::script::Script;

impl Script<'_> {
    /// A union into set k, at times once a chunk has m - 1, m or m + 1 members in both sets together; both are looked at afterwards.
    pub fn unite(&mut self, k: usize) {
        if self.random.one_in(3) {
            self.meeting();
        }
        let call = self.random.one_of(&[Call::From, Call::From, Call::Merge]);
        self.say(k, call);
        for call in [Call::Check, Call::Len, Call::Chunks] {
            (0..2).for_each(|k| _ = self.say(k, call));
        }
    }

    /// Members of a chunk dealt out to both sets: each to one of them, some to both; few of them once they are refused.
    fn meeting(&mut self) {
        let (z, g) = (self.sizes, &mut self.random);
        let (chunk, first, step) = (g.below(z.d.min(3) + 2), g.below(1 << (z.s - 1)), 1 + g.below(3));
        let members = (z.m + g.below(3)).saturating_sub(1);
        let (dealt, mut refused) = (3 + g.below(4), 0);
        for i in 0..members {
            let id = ((chunk << z.s) + (first + i * step) % (1 << z.s)) as i64;
            let to = self.random.below(dealt);
            for k in (0..2).filter(|&k| to != k as u64) {
                refused += u64::from(self.say(k, Call::New(id)).refusal().is_some());
            }
            if refused > 3 {
                return;
            }
        }
    }

    /// The other set with another s or m, in which a union meets few members or none: 10 both ways, but for 4. What the Rust says of inserts
    /// doesn't hang on s and m.
    pub fn other_shape(&mut self, k: usize) {
        let mut z = Sizes { r: self.sizes.r / 2, p: self.sizes.p / 2, ..self.sizes };
        match self.random.below(4) {
            0 => z.s = (z.s + 1).min(25),
            1 => z.s = (z.s - 1).max(9),
            2 => z.m = (z.m + 1).min(1024),
            _ => z.m = (z.m - 1).max(1),
        }
        self.say(1 - k, Call::SetUp(z));
        for _ in 0..self.random.below(4) {
            let id = self.random.id(self.sizes, 9);
            self.say(1 - k, Call::New(id));
        }
        if self.random.one_in(3) {
            self.say(1 - k, Call::RankUp);
        }
        for call in [Call::From, Call::Merge] {
            self.say(k, call);
            self.say(1 - k, call);
        }
        self.set_up(1 - k);
    }
}
