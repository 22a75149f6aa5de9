//! The library linked through `exports`: each call is compared at once, memory after each refusal, each plan and each union, elements past the sizes at
//! the end.
use crate::call::{Call, Ids, Ranges, Record, Said, Sizes};
use crate::lent;
use crate::lists;
use crate::locations;
use crate::memory::{DONE, Done, Inserted, Listing, Memory, Needs, Number, Optional, Truth};
use crate::planning;
use crate::rust::BOUNDARIES;
use crate::script::Way;

#[derive(Clone)]
struct Set {
    memory: Memory,
    /// Memory as the last accepted writing call left it, once it has been asked for.
    before: Memory,
    known: bool,
    bounds: Vec<i64>,
    /// Those of the last accepted set-up.
    sizes: Option<Sizes>,
    /// How much of each slice an accepted set-up needed, at most.
    used: [usize; 4],
}

pub struct Linked {
    sizes: Sizes,
    sets: Vec<Set>,
}

/// Beside a refusal every field of an answer is 0.
fn alone(refusal: u64, rest_is_0: bool) -> Said {
    assert!(rest_is_0, "a field beside a refusal is not 0");
    Said::Refused(refusal)
}

fn ok(a: Done) -> Said {
    match a.refusal {
        0 => Said::Ok,
        c => Said::Refused(c),
    }
}

fn truth(a: Truth) -> Said {
    match a.refusal {
        0 => Said::Truth(a.yes),
        c => alone(c, !a.yes),
    }
}

fn number(a: Number) -> Said {
    match a.refusal {
        0 => Said::Number(a.value),
        c => alone(c, a.value == 0),
    }
}

fn perhaps(a: Optional) -> Said {
    match a.refusal {
        0 if a.has => Said::Number(a.value),
        0 => {
            assert_eq!(a.value, 0, "a value where there is none");
            Said::Nothing
        }
        c => alone(c, !a.has && a.value == 0),
    }
}

/// Unused places hold 0, and beside a refusal so does every field.
fn listed(r: Listing) -> Said {
    let used = r.count as usize;
    assert!(used <= 64 && r.ids[used..].iter().all(|&id| id == 0), "an unused place of a record is not 0");
    if r.refusal == 0 {
        return Said::Listed { ids: r.ids[..used].to_vec(), end: r.end, next: r.next };
    }
    alone(r.refusal, used == 0 && !r.end && r.next == 0)
}

fn marked(ranges: &Ranges, call: impl FnOnce(&[i64], &[i64], &mut [u8]) -> Done) -> Said {
    match lists::marked(ranges.ends(), ranges.more, call) {
        Ok((a, marks)) if a == DONE => Said::Marks(marks),
        Ok((a, _)) => ok(a),
        Err(wrong) => panic!("{wrong}"),
    }
}

/// Numbers that no call over a list answers.
const NEITHER: (u8, u64) = (7, 1 << 63);

fn answered<T: Copy + PartialEq>(ids: &Ids, neither: T, call: impl FnOnce(&[i64], &mut [T]) -> Done, said: impl FnOnce(Vec<T>) -> Said) -> Said {
    match lent::answered(ids.ids(), ids.more, neither, call) {
        Ok((a, answers)) if a == DONE => said(answers),
        Ok((a, _)) => ok(a),
        Err(wrong) => panic!("{wrong}"),
    }
}

fn members(answers: Vec<u8>) -> Said {
    assert!(answers.iter().all(|&answer| answer <= 1), "an answer is neither 0 nor 1");
    Said::Marks(answers.iter().map(|&answer| answer == 1).collect())
}

fn ranks(answers: Vec<u64>) -> Said {
    Said::Ranks(answers.iter().map(|&rank| (rank != u64::MAX).then_some(rank)).collect())
}

fn inserted(Inserted { taken, fresh, stop: refusal }: Inserted) -> Said {
    Said::Inserted { taken, fresh, refusal }
}

impl Set {
    fn answer(&mut self, call: &Call) -> Said {
        let x = &mut self.memory;
        match *call {
            Call::SetUp(z) => ok(x.bp_set_up(z)),
            Call::Check => Said::Yes(x.bp_check()),
            Call::Set(id) => ok(x.bp_set(id)),
            Call::New(id) => truth(x.bp_set_if_new(id)),
            Call::Put(id) => truth(x.bp_set_prepared(id)),
            Call::Prepare(max) => ok(x.bp_pre_allocate(max)),
            Call::From | Call::Merge => unreachable!("a union is no call on one set"),
            Call::Get(id) => truth(x.bp_get(id)),
            Call::Any(min, max) => truth(x.bp_any_in_range(min, max)),
            Call::Len => number(x.bp_len()),
            Call::Chunks => number(x.bp_allocated_chunk_count()),
            Call::Empty => truth(x.bp_is_empty()),
            Call::Has => truth(x.bp_has_any()),
            Call::Chunk(id) => perhaps(x.bp_chunk_of(id)),
            Call::Iter(start) => listed(x.bp_iter_from(start)),
            Call::Mark(ranges) => marked(&ranges, |lows, highs, marks| x.bp_mark_ends_by_range(lows, highs, marks)),
            Call::GetAll(ids) => answered(&ids, NEITHER.0, |ids, answers| x.bp_get_all(ids, answers), members),
            Call::RankAll(ids) => answered(&ids, NEITHER.1, |ids, answers| x.bp_rank_all(ids, answers), ranks),
            Call::RankIfAll(ids) => answered(&ids, NEITHER.1, |ids, answers| x.bp_rank_if_set_all(ids, answers), ranks),
            Call::InsertAll(ids) => inserted(x.bp_insert_all(ids.ids())),
            Call::RankUp => ok(x.bp_into_ranked()),
            Call::Open => ok(x.bp_into_open()),
            Call::Rank(id) => number(x.bp_rank(id)),
            Call::RankIf(id) => perhaps(x.bp_rank_if_set(id)),
            Call::Total => number(x.bp_total_count()),
            Call::Plan { slots, room } => self.plan(slots, room as usize),
            Call::Part { record, room, k } => self.part(record, room as usize, k),
            Call::Meet { record, room, k, ranges } => self.meet(record, room as usize, k, &ranges),
            Call::Slots(b) => Said::Number(brothpillow::slots_for_budget(b)),
            Call::Bounded(claim, length, per) => Said::Signed(brothpillow::file_bounded_max_id(claim, length, per)),
        }
    }

    /// Boundaries past those of the plan stay, all of them where it is refused.
    fn plan(&mut self, slots: u64, room: usize) -> Said {
        let before = self.bounds.clone();
        let a = self.memory.plan(slots, &mut self.bounds[..room]);
        let written = if a.refusal == 0 { a.partitions as usize - 1 } else { 0 };
        assert!(self.bounds[written..] == before[written..], "planning wrote past its boundaries");
        match a.refusal {
            0 => Said::Planned(Record { total: a.total, slots: a.slots, partitions: a.partitions }, self.bounds[..written].to_vec()),
            c => alone(c, (a.total, a.slots, a.partitions) == (0, 0, 0)),
        }
    }

    fn part(&mut self, p: Record, room: usize, k: u64) -> Said {
        let i = planning::ids(p, &self.bounds[..room], k);
        let r = planning::ranks(p, k);
        assert!(i.refusal == 0 || (i.has_high, i.low) == (false, 0), "a field beside a refusal is not 0");
        assert!(r.refusal == 0 || (r.first, r.count) == (0, 0), "a field beside a refusal is not 0");
        assert!(i.has_high || i.high == 0, "a high end where there is none");
        let ids = if i.refusal == 0 { Ok((i.low, i.has_high.then_some(i.high))) } else { Err(i.refusal) };
        let ranks = if r.refusal == 0 { Ok((r.first, r.count)) } else { Err(r.refusal) };
        if let Ok((low, high)) = ids {
            intervals_agree(low, high);
        }
        Said::Part { ids, ranks }
    }

    fn meet(&self, p: Record, room: usize, k: u64, ranges: &Ranges) -> Said {
        let before = self.bounds.clone();
        let said = marked(ranges, |lows, highs, marks| planning::mark_ends_by_partition(lows, highs, marks, p, &self.bounds[..room], k));
        assert!(self.bounds == before, "a boundary changed");
        said
    }

    /// Union with another set. `merge` is to leave its source as set-up leaves what was there.
    fn union(&mut self, from: &mut Set, call: &Call) -> Said {
        from.take_down();
        let merges = *call == Call::Merge;
        let said = ok(if merges { self.memory.bp_merge(&mut from.memory) } else { self.memory.bp_merge_from(&from.memory) });
        if let (Some(z), Said::Ok, true) = (from.sizes, &said, merges) {
            assert_eq!(from.before.bp_set_up(z), DONE);
        }
        said
    }

    /// Memory is taken down, unless nothing was written since that was done last.
    fn take_down(&mut self) {
        if !self.known {
            self.before.clone_from(&self.memory);
            self.known = true;
        }
    }
}

/// What lies in an interval, around its ends.
fn intervals_agree(low: i64, high: Option<i64>) {
    let ends = [low, high.unwrap_or(0), i64::MIN, i64::MAX, 0];
    let near = ends.iter().flat_map(|e| [e.wrapping_sub(1), *e, e.wrapping_add(1)]);
    let near: Vec<i64> = near.collect();
    for &id in &near {
        assert_eq!(planning::in_partition(id, low, high), locations::in_partition(id, (low, high)), "in_partition {id} of {low} {high:?}");
        for &max in &near {
            assert_eq!(planning::range_meets(id, max, low, high), locations::range_meets(id, max, (low, high)), "range_meets {id} {max} of {low} {high:?}");
        }
    }
}

impl Linked {
    pub fn new(sizes: Sizes) -> Linked {
        Linked { sizes, sets: Vec::new() }
    }
}

impl Way for Linked {
    /// What the sizes need and a little more.
    fn lends(&self, z: Sizes) -> [usize; 4] {
        z.needs().map(|n| n + 3)
    }

    fn lends_lists(&self) -> bool {
        true
    }

    fn begin(&mut self) -> bool {
        let lent = self.lends(self.sizes);
        let [memory, before] = [lent, [0; 4]].map(Memory::marked);
        let set = Set { memory, before, known: false, bounds: vec![-7; BOUNDARIES], sizes: None, used: [0; 4] };
        self.sets = vec![set.clone(), set];
        true
    }

    fn call(&mut self, k: usize, call: &Call, wanted: &Said) {
        let [set, other] = self.sets.get_disjoint_mut([k, 1 - k]).expect("two sets");
        let stays = !call.writes() || wanted.refusal().is_some();
        // where memory is large, other reading calls are compared with the next refusal or plan
        let compared = stays && call.of_a_set() && (self.sizes.s < 12 || wanted.refusal().is_some() || matches!(call, Call::Plan { .. }));
        if compared {
            set.take_down();
        }
        let said = if call.is_union() { set.union(other, call) } else { set.answer(call) };
        assert!(said == *wanted, "{}\nwanted {wanted}\nsaid   {said}\n({wanted:?}, {said:?})", call.line(k));
        assert!(!compared || set.before == set.memory, "{}: memory is not as it was", call.line(k));
        assert!(!call.is_union() || other.before == other.memory, "{}: its source is not as it has to be", call.line(k));
        set.known &= stays;
        if let (&Call::SetUp(z), Said::Ok) = (call, &said) {
            set.sizes = Some(z);
            for (used, needs) in set.used.iter_mut().zip(z.needs()) {
                *used = needs.max(*used);
            }
        }
    }

    fn end(&mut self) {
        for set in &self.sets {
            assert!(set.memory.marked_from(set.used), "an element past the sizes was written");
        }
    }
}
