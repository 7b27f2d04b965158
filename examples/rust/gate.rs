// The same gate from Rust, over the crate in bindings/rust: a few cows and the bull, and the lane of each. Run by
// examples/rust/run.
use boughladder::{items, lane, slots, Lane, Reading, Refusal, Table, LARGEST_LIMIT, LEAST_LEFT, RETIRED_MARK};

const BULL: u64 = 900;

fn called(animal: u64) -> &'static str {
    if animal == BULL {
        "bull"
    } else {
        "cow"
    }
}

fn main() -> Result<(), Refusal> {
    // The lent memory: 64 buckets, 16 counters, 3 places; and the hand.
    let (mut s, mut c, mut i) = ([0; slots(64)], [0; 16], [0; items(3)]);
    let mut table = Table { slots: &mut s, counters: &mut c, items: &mut i };
    let mut hand = 0;
    table.fresh()?;

    // Permissions: bit 0 milking, else bit 1 grazing, else hold her.
    // The office issued this list in minute 100, and it is minute 110.
    for (animal, permission) in [(3101, 1), (3102, 0)] {
        let stored = table.set(animal, permission, 100, 110)?;
        println!("cow {animal} stored: {} buckets visited, {} entries moved", stored.visits, stored.moves);
    }
    // The bull's permission is issued anew each week, and a week is his limit.
    table.set(BULL, 2, 100, 110)?;

    // The lane decides; the rest of the answer only says why. 3102 is fresh at first, and held all the same.
    for (animal, now) in [
        (3101, 820),
        (3102, 820),
        (3102, 821),
        (BULL, 821),
        (BULL, 10180),
        (BULL, 10181),
        (3101, 99),
        (4711, 200),
        (0, 200),
    ] {
        let said = table.serve(animal, if animal == BULL { LARGEST_LIMIT } else { 720 }, now);
        print!("minute {now}: {} {animal}: {:?}, ", called(animal), lane(said));
        match said {
            Ok(reading) => println!("{reading:?}"),
            Err(refusal) => println!("refusal {}, {refusal}", refusal.number()),
        }
    }

    // Today's list holds 3101; then the relay brings yesterday's, and she keeps today's.
    table.set(3101, 0, 825, 828)?;
    assert_eq!(table.set(3101, 1, 100, 829), Err(Refusal::Late));
    println!("cow 3101 not stored: {}", Refusal::Late);

    // A fourth cow has no place: the hand takes one that was not here lately, after it has passed all once.
    assert_eq!(table.set(3105, 1, 830, 831), Err(Refusal::NoPlace));
    let gone = table.evict(hand)?;
    hand = gone.hand;
    println!("cow {} evicted, {} places looked at, the hand is at {hand}", gone.victim, gone.looked);
    table.set(3105, 1, 830, 831)?;
    assert_eq!(table.read(3105, 720, 840), Ok(Reading::Fresh { permission: 1, left: 710 }));
    assert_eq!(table.delete(gone.victim), Err(Refusal::Nobody));

    // As a table from before 4.0.0 may hold him: his permission was a standing one. It is retired and opens no gate.
    let place = table.find(BULL)?.unwrap();
    table.items[4 * place + 2] = RETIRED_MARK;
    let said = table.serve(BULL, LARGEST_LIMIT, 840);
    assert_eq!((said, lane(said)), (Ok(Reading::Old { left: LEAST_LEFT }), Lane::Holding));
    let mut buffer = [0; boughladder::list_bytes(3)];
    let records = table.list(&mut buffer)?;
    // For the auditor: plain read, which knows no hashing, answers as read for every animal on the list.
    for record in records.clone() {
        assert_eq!(table.plain_read(record.animal, 720, 840), table.read(record.animal, 720, 840));
        if record.stamp == RETIRED_MARK {
            println!("{} {}: {:?}, retired", called(record.animal), record.animal, lane(said));
        }
    }
    // Any list of his replaces it.
    table.set(BULL, 2, 100, 841)?;
    let said = table.serve(BULL, LARGEST_LIMIT, 841);
    assert_eq!((said, lane(said)), (Ok(Reading::Fresh { permission: 2, left: 9339 }), Lane::Grazing));
    println!(
        "gate: the list has {} records: {:?}",
        records.len(),
        records.map(|record| record.animal).collect::<Vec<_>>()
    );
    Ok(())
}
