//! Loads two halves of a file's ids on two threads, each into a set of its own, and unites them: what the Rust's atomic inserts into one shared set are for.
//! Then ranks the whole and plans it. `merge` copies chunk by chunk, so it costs a pass over the second set's memory.
use brothpillow::{Refusal, Set, Sizes};
use std::thread;

/// Ids as a file has them: clusters along a walk.
fn ids(members: u64, highest: i64) -> Vec<i64> {
    let apart = highest / members as i64;
    (0..members as i64).map(|n| n / 16 * 16 * apart + n % 16).collect()
}

/// A set of these ids.
fn loaded(sizes: Sizes, ids: &[i64]) -> Result<Set, Refusal> {
    let mut set = Set::new(sizes)?;
    for &id in ids {
        set.set(id)?;
    }
    Ok(set)
}

fn main() -> Result<(), Refusal> {
    let (members, highest) = (200_000, 50_000_000);
    let ids = ids(members, highest);
    // both sets with the same sizes: union wants one s and one m, and the first has to have room for all
    let sizes = Sizes::for_members(members, highest)?;
    let (left, right) = ids.split_at(ids.len() / 2);
    let (one, other) = thread::scope(|threads| {
        let one = threads.spawn(|| loaded(sizes, left));
        let other = loaded(sizes, right);
        (one.join().expect("no call panics"), other)
    });
    let (mut set, mut other) = (one?, other?);
    set.merge(&mut other)?;
    assert_eq!(other.is_empty(), Ok(true));

    set.into_ranked()?;
    println!("{} ids in {} chunks, {} bytes", set.total_count()?, set.allocated_chunk_count()?, sizes.bytes()?);
    for (id, row) in ids.iter().zip(0..) {
        assert_eq!(set.rank_if_set(*id), Ok(Some(row)));
    }
    for part in set.plan(50_000)?.partitions() {
        let read = set.range(part.ids).try_fold(0, |n, id| id.map(|_| n + 1))?;
        assert_eq!(part.count, read);
        println!("partition {}: {} ids, rows {:?}", part.number, read, part.ranks());
    }
    Ok(())
}
