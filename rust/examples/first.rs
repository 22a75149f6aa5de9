use brothpillow::{Refusal, Set, Sizes};

fn main() -> Result<(), Refusal> {
    let mut set = Set::new(Sizes::for_members(1_000, 1_000_000)?)?;
    for id in [700_000, 5, 9, 5] {
        set.set(id)?;
    }
    set.into_ranked()?;
    println!("{} members, 9 has rank {}", set.total_count()?, set.rank(9)?);
    for part in set.plan(2)?.partitions() {
        let ids = set.range(part.ids).collect::<Result<Vec<i64>, Refusal>>()?;
        println!("partition {}: {ids:?}", part.number);
    }
    Ok(())
}
