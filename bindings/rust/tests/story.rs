// The order's examples, samples/network-drop.calls with its answers, the cabinet of samples/retired.calls, and sets in
// steps.
// bindings/python/test_story.py tells the same.
use boughladder::*;

struct Memory {
    slots: Vec<u32>,
    counters: Vec<u32>,
    items: Vec<u64>,
}

// Lent memory of these lengths in words, with garbage in it.
fn lent(s: usize, c: usize, i: usize) -> Memory {
    Memory { slots: vec![0xa5a5_a5a5; s], counters: vec![0xa5a5_a5a5; c], items: vec![0xa5a5_a5a5_a5a5_a5a5; i] }
}

impl Memory {
    fn table(&mut self) -> Table<'_> {
        Table { slots: &mut self.slots, counters: &mut self.counters, items: &mut self.items }
    }
}

fn stored(visits: usize, moves: usize) -> Result<Stored, Refusal> {
    Ok(Stored { visits, moves })
}

fn fresh(permission: u32, left: i64) -> Result<Reading, Refusal> {
    Ok(Reading::Fresh { permission, left })
}

// What is said of an entry that is retired, at every minute and under every limit.
const RETIRED: Result<Reading, Refusal> = Ok(Reading::Old { left: LEAST_LEFT });

fn words(table: &Table) -> (Vec<u32>, Vec<u32>, Vec<u64>) {
    (table.slots.to_vec(), table.counters.to_vec(), table.items.to_vec())
}

#[test]
fn lengths() {
    for (s, c, i, good) in [
        (8, 1, 4, true),
        (4, 1, 4, false),
        (12, 1, 4, false),
        (8192, 1, 4, true),
        (16384, 1, 4, false),
        (8, 0, 4, false),
        (8, 1024, 4, true),
        (8, 1025, 4, false),
        (8, 1, 0, false),
        (8, 1, 6, false),
        (8, 1, 16384, true),
        (8, 1, 16388, false),
        (0, 0, 0, false),
    ] {
        let said = lent(s, c, i).table().fresh();
        assert_eq!(said, if good { Ok(()) } else { Err(Refusal::BadShape) }, "{s} {c} {i}");
    }
    assert_eq!((slots(2048), items(4096), list_bytes(200)), (8192, 16384, 4000));
}

#[test]
fn ages() {
    let mut memory = lent(slots(8), 4, items(8));
    let mut table = memory.table();
    table.fresh().unwrap();
    assert_eq!(table.set(7, 5, 100, 100), stored(1, 0));
    assert_eq!(table.read(7, 720, 820), fresh(5, 0));
    assert_eq!(table.read(7, 720, 821), Ok(Reading::Old { left: -1 }));
    assert_eq!(table.read(7, 720, 99), Ok(Reading::Ahead));
    assert_eq!(table.read(8, 720, 100), Ok(Reading::Absent));
    assert_eq!(table.read(7, LARGEST_LIMIT, 10180), fresh(5, 0));
    assert_eq!(table.read(7, LARGEST_LIMIT + 1, 100), Err(Refusal::BadTime));
    assert_eq!(table.read(7, 720, NO_MINUTE), Err(Refusal::BadTime));
    assert_eq!(table.set(7, 5, NO_MINUTE, NO_MINUTE), Err(Refusal::BadTime));
    assert_eq!(table.read(0, 720, 100), Err(Refusal::NoAnimal));
    assert_eq!(table.set_cut(7, 6, 200, 200, ALL_STORES), stored(0, 0));
    assert_eq!(table.items[..4], [7, 6, 200, 1]);
    // As a table from before 4.0.0 may hold her.
    table.items[2] = RETIRED_MARK;
    assert_eq!(table.read(7, 0, u64::MAX - 1), RETIRED);
    assert_eq!(table.read(7, 720, 200), RETIRED);
    assert_eq!((NO_MINUTE, RETIRED_MARK, ALL_STORES), (u64::MAX, u64::MAX, u64::MAX));
}

// What read, plain read and serve say of a held animal with that stamp; serve marks her where she is fresh.
fn of_stamp(stamp: u64, limit: u64, now: u64) -> Result<Reading, Refusal> {
    let mut memory = lent(slots(8), 4, items(1));
    let mut table = holding(&mut memory);
    table.items[2] = stamp;
    let mut before = words(&table);
    let said = table.read(7, limit, now);
    assert_eq!(plainly(&table, 7, limit, now), said);
    assert_eq!(words(&table), before);
    assert_eq!(table.serve(7, limit, now), said);
    before.2[3] = u64::from(matches!(said, Ok(Reading::Fresh { .. })));
    assert_eq!(words(&table), before);
    said
}

#[test]
fn what_is_left() {
    let old = |left| Ok(Reading::Old { left });
    assert_eq!(LEAST_LEFT, -4611686018427387904);
    for limit in [0, 1, 720, LARGEST_LIMIT] {
        let whole = limit as i64;
        for stamp in [0, 100, (1 << 32) - 1, 1 << 62] {
            let last = stamp + limit;
            assert_eq!(of_stamp(stamp, limit, stamp), fresh(5, whole));
            assert_eq!(of_stamp(stamp, limit, last), fresh(5, 0));
            assert_eq!(of_stamp(stamp, limit, last + 1), old(-1));
            assert_eq!(of_stamp(stamp, limit, last + 4294967296), old(-4294967296));
            // The lower end, and beyond it.
            assert_eq!(of_stamp(stamp, limit, last + 4611686018427387903), old(-4611686018427387903));
            for more in [0, 1, (1 << 62) - 1, 1 << 62] {
                assert_eq!(of_stamp(stamp, limit, last + 4611686018427387904 + more), old(LEAST_LEFT));
            }
            assert_eq!(of_stamp(stamp, limit, u64::MAX - 1), old(LEAST_LEFT));
            assert_eq!(of_stamp(stamp + 1, limit, stamp), Ok(Reading::Ahead));
            assert_eq!(of_stamp(RETIRED_MARK, limit, stamp), RETIRED);
            assert_eq!(of_stamp(RETIRED_MARK, limit, last), RETIRED);
        }
        // The largest minute is no mark.
        assert_eq!(of_stamp(u64::MAX - 1, limit, 0), Ok(Reading::Ahead));
        assert_eq!(of_stamp(u64::MAX - 1, limit, u64::MAX - 1), fresh(5, whole));
        assert_eq!(of_stamp(RETIRED_MARK, limit, u64::MAX - 1), RETIRED);
    }
}

#[test]
fn the_network_drops() {
    let mut memory = lent(32, 4, 32);
    let mut table = memory.table();
    table.fresh().unwrap();
    assert_eq!(table.set(4711, 1, 100, 100), stored(1, 0));
    assert_eq!(table.set(4712, 1, 100, 100), stored(1, 0));
    assert_eq!(table.set(4713, 2, 100, 100), stored(1, 0));
    assert_eq!(table.serve(4711, 720, 130), fresh(1, 690));
    assert_eq!(table.serve(4712, 720, 130), fresh(1, 690));
    assert_eq!(table.serve(4713, 720, 130), fresh(2, 690));
    assert_eq!(table.read(4712, 720, 200), fresh(1, 620));
    assert_eq!(table.serve(4711, 720, 820), fresh(1, 0));
    assert_eq!(table.serve(4711, 720, 821), Ok(Reading::Old { left: -1 }));
    assert_eq!(lane(table.serve(4711, 720, 821)), Lane::Holding);
    assert_eq!(table.serve(4712, 720, 840), Ok(Reading::Old { left: -20 }));
    assert_eq!(table.serve(4713, 720, 840), Ok(Reading::Old { left: -20 }));
    // The bull gets a new permission each week, and a week is his limit. This one was issued at 60.
    assert_eq!(table.set(900, 2, 60, 840), stored(1, 0));
    assert_eq!(table.serve(900, LARGEST_LIMIT, 840), fresh(2, 9300));
    assert_eq!(table.serve(4799, 720, 840), Ok(Reading::Absent));
    assert_eq!(table.read(4711, 10080, 840), fresh(1, 9340));
    assert_eq!(table.read(4711, 10081, 840), Err(Refusal::BadTime));

    // The network is back: 4712 was treated, and her fresh permission is to hold her.
    assert_eq!(table.set(4711, 1, 890, 900), stored(0, 0));
    assert_eq!(table.set(4712, 0, 890, 900), stored(0, 0));
    // Yesterday's list comes behind it. Where today's is held it is late; else it is stored, and old at once.
    assert_eq!(table.set(4711, 1, 100, 902), Err(Refusal::Late));
    assert_eq!(table.set(4712, 1, 100, 902), Err(Refusal::Late));
    assert_eq!(table.set(4713, 2, 100, 902), stored(0, 0));
    assert_eq!(table.set(4714, 1, 100, 902), stored(1, 0));
    assert_eq!(table.serve(4711, 720, 905), fresh(1, 705));
    assert_eq!(table.serve(4712, 720, 905), fresh(0, 705));
    assert_eq!(table.serve(4713, 720, 905), Ok(Reading::Old { left: -85 }));
    assert_eq!(table.serve(4714, 720, 905), Ok(Reading::Old { left: -85 }));
    assert_eq!(table.set(4713, 2, 890, 906), stored(0, 0));
    assert_eq!(table.set(4714, 1, 890, 906), stored(0, 0));
    assert_eq!(table.serve(4713, 720, 910), fresh(2, 700));
    assert_eq!(lane(table.serve(4711, 720, 910)), Lane::Milking);
    assert_eq!(lane(table.serve(4712, 720, 910)), Lane::Holding);
    assert_eq!(lane(table.serve(4713, 720, 910)), Lane::Grazing);
    assert_eq!(table.serve(4714, 720, 910), fresh(1, 700));
    assert_eq!(table.read(4711, 720, 99), Ok(Reading::Ahead));
    assert_eq!(table.set(4715, 1, 100, 100), stored(1, 0));
    assert_eq!(table.read(4715, 720, 99), Ok(Reading::Ahead));
    assert_eq!(table.delete(4713), Ok(()));
    assert_eq!(table.delete(4713), Err(Refusal::Nobody));
    assert_eq!(table.find(4713), Ok(None));
    assert_eq!(table.find(4715), Ok(Some(5)));

    let mut buffer = [0xee; 104];
    assert_eq!(table.list(&mut buffer[..99]).err(), Some(Refusal::ShortBuffer));
    assert_eq!(buffer, [0xee; 104]);
    let records = table.list(&mut buffer).unwrap();
    let text: String = records.bytes().iter().map(|byte| format!("{byte:02x}")).collect();
    assert_eq!(
        text,
        "6712000000000000010000007a03000000000000\
         6812000000000000000000007a03000000000000\
         8403000000000000020000003c00000000000000\
         6a12000000000000010000007a03000000000000\
         6b12000000000000010000006400000000000000"
    );
    let told: Vec<_> = records.map(|record| (record.animal, record.permission, record.stamp)).collect();
    assert_eq!(told, [(4711, 1, 890), (4712, 0, 890), (900, 2, 60), (4714, 1, 890), (4715, 1, 100)]);
    assert_eq!(buffer[100..], [0xee; 4]);
}

// A table in which animal 7 has permission 5, issued in minute 100 and stored in minute 300; she was not here since.
fn holding(memory: &mut Memory) -> Table<'_> {
    let mut table = memory.table();
    table.fresh().unwrap();
    assert_eq!(table.set(7, 5, 100, 300), stored(1, 0));
    table.items[3] = 0;
    table
}

// What a set and its cut form say, both of which must refuse and leave every word as it was.
fn refused(table: &mut Table, animal: u64, issued: u64, now: u64) -> Refusal {
    let before = words(table);
    let whole = table.set(animal, 9, issued, now);
    for k in [0, 5, ALL_STORES] {
        assert_eq!(table.set_cut(animal, 9, issued, now, k), whole);
    }
    assert_eq!(words(table), before);
    whole.unwrap_err()
}

#[test]
fn a_late_list() {
    let mut memory = lent(slots(8), 4, items(1));
    let mut table = holding(&mut memory);
    assert_eq!(refused(&mut table, 7, 99, 300), Refusal::Late);
    assert_eq!(table.read(7, 720, 300), fresh(5, 520));
    // Not held, and no place: that is another refusal.
    assert_eq!(refused(&mut table, 8, 99, 300), Refusal::NoPlace);
    // The same minute is stored, and so is a later one, by the cut form too.
    assert_eq!(table.set(7, 6, 100, 300), stored(0, 0));
    assert_eq!(table.items[..4], [7, 6, 100, 1]);
    assert_eq!(table.set_cut(7, 4, 101, 300, 5), stored(0, 0));
    assert_eq!(table.items[..4], [7, 4, 101, 1]);
}

#[test]
fn issued_after_now() {
    let mut memory = lent(slots(8), 4, items(1));
    let mut table = holding(&mut memory);
    // Retired or not. No issue minute makes a stamp that is retired.
    for stamp in [100, RETIRED_MARK] {
        table.items[2] = stamp;
        for animal in [7, 8] {
            assert_eq!(refused(&mut table, animal, 301, 300), Refusal::BadTime);
            assert_eq!(refused(&mut table, animal, 300, NO_MINUTE), Refusal::BadTime);
            assert_eq!(refused(&mut table, animal, RETIRED_MARK, u64::MAX - 1), Refusal::BadTime);
            assert_eq!(refused(&mut table, animal, RETIRED_MARK, NO_MINUTE), Refusal::BadTime);
        }
    }
    assert_eq!(table.set(7, 6, 300, 300), stored(0, 0));
    // The minutes swapped.
    assert_eq!(refused(&mut table, 7, 400, 310), Refusal::BadTime);
}

// A cabinet from before 4.0.0: cow 4713, and two bulls who are retired. 901 was here lately, 900 was not.
fn cabinet() -> Memory {
    Memory {
        slots: vec![0, 14155778, 0, 0, 11862017, 0, 0, 0, 2818048, 0, 0, 0, 0, 0, 0, 0],
        counters: vec![8, 2],
        items: vec![4713, 2, 100, 1, 901, 2, RETIRED_MARK, 1, 900, 2, RETIRED_MARK, 0, 0, 0, 0, 0],
    }
}

#[test]
fn retired_opens_no_gate() {
    let mut memory = cabinet();
    let mut table = memory.table();
    let before = words(&table);
    for animal in [900, 901] {
        for limit in [0, 1, 720, LARGEST_LIMIT] {
            for now in [0, 1, 99, 100, 130, 820, 10180, 1 << 62, 1 << 63, u64::MAX - 1] {
                assert_eq!(table.read(animal, limit, now), RETIRED);
                assert_eq!(plainly(&table, animal, limit, now), RETIRED);
                let said = table.serve(animal, limit, now);
                assert_eq!((said, lane(said)), (RETIRED, Lane::Holding));
            }
            assert_eq!(table.read(animal, limit, NO_MINUTE), Err(Refusal::BadTime));
            assert_eq!(plainly(&table, animal, limit, NO_MINUTE), Err(Refusal::BadTime));
            let said = table.serve(animal, limit, NO_MINUTE);
            assert_eq!((said, lane(said)), (Err(Refusal::BadTime), Lane::Holding));
        }
        assert_eq!(table.read(animal, LARGEST_LIMIT + 1, 130), Err(Refusal::BadTime));
    }
    // Serve has changed no word, for a recent one neither. The cow's answer is as ever.
    assert_eq!(words(&table), before);
    assert_eq!(table.serve(4713, 720, 130), fresh(2, 690));
    assert_eq!((table.find(901), table.find(900)), (Ok(Some(1)), Ok(Some(2))));
    agree(&table, &[4713, 900, 901]);

    // Sound, and listed as it is stored.
    assert_eq!(judged(&table), None);
    let mut buffer = [0; list_bytes(3)];
    let told: Vec<_> = table.list(&mut buffer).unwrap().map(|r| (r.animal, r.permission, r.stamp)).collect();
    assert_eq!(told, [(4713, 2, 100), (901, 2, RETIRED_MARK), (900, 2, RETIRED_MARK)]);
    assert_eq!(buffer[32..40], [0xff; 8]);
    // The hand passes 901, who was here lately, and takes 900. Served, 901 is still not recent: he is next.
    assert_eq!(table.evict(1), Ok(Evicted { victim: 900, looked: 2, hand: 3 }));
    assert_eq!(table.serve(901, 720, 130), RETIRED);
    assert_eq!(table.evict(3), Ok(Evicted { victim: 901, looked: 3, hand: 2 }));
}

#[test]
fn retired_is_replaced() {
    for issued in [0, 1, 60, 1 << 32, u64::MAX - 1] {
        for now in [issued, u64::MAX - 1] {
            let mut memory = cabinet();
            let mut table = memory.table();
            let mut then = words(&table);
            assert_eq!(table.set(900, 6, issued, now), stored(0, 0));
            // His three words and his counter, and nothing else.
            then.1[0] += 2;
            then.2[8..12].copy_from_slice(&[900, 6, issued, 1]);
            assert_eq!(words(&table), then);
            assert_eq!(table.serve(900, 720, issued), fresh(6, 720));
            assert_eq!(table.read(901, 720, issued), RETIRED);
            assert_eq!(judged(&table), None);
            // From here on he is judged as any other.
            if issued > 0 {
                assert_eq!(table.read(900, 720, issued - 1), Ok(Reading::Ahead));
                assert_eq!(refused(&mut table, 900, issued - 1, now), Refusal::Late);
            }
            assert_eq!(table.set(900, 2, issued, now), stored(0, 0));
        }
    }
    // The largest minute is no mark: every other list is late for it.
    let mut memory = cabinet();
    let mut table = memory.table();
    table.items[10] = u64::MAX - 1;
    assert_eq!(refused(&mut table, 900, 131, 131), Refusal::Late);
    table.items[10] = RETIRED_MARK;
    // Other refusals come first.
    table.counters[0] += 1;
    assert_eq!(refused(&mut table, 900, 60, 131), Refusal::Busy);
    assert_eq!(plainly(&table, 900, 720, 131), RETIRED);
    table.counters[0] -= 1;
    table.slots[2] = 7;
    assert_eq!(refused(&mut table, 900, 60, 131), Refusal::Damaged);
    table.slots[2] = 0;
    // Five stores: counter, permission, stamp, recent, counter. Before the third it is retired still.
    for k in 0..=6 {
        let mut memory = cabinet();
        let mut table = memory.table();
        assert_eq!(table.set_cut(900, 6, 60, 131, k), stored(0, 0));
        let now = if k < 3 { RETIRED } else { fresh(6, 649) };
        assert_eq!(plainly(&table, 900, 720, 131), now);
        assert_eq!(table.read(900, 720, 131), if (1..=4).contains(&k) { Err(Refusal::Busy) } else { now });
    }
    // A delete takes it away as any other.
    assert_eq!(table.delete(900), Ok(()));
    assert_eq!(table.items[8..12], [0; 4]);
    assert_eq!(table.set(900, 6, 60, 131), stored(1, 0));
    assert_eq!(table.read(900, 720, 131), fresh(6, 649));
}

#[test]
fn late_and_nothing_held() {
    let mut memory = lent(slots(8), 4, items(1));
    let mut table = holding(&mut memory);
    assert_eq!(refused(&mut table, 7, 90, 300), Refusal::Late);
    table.delete(7).unwrap();
    assert_eq!(table.set(7, 1, 90, 300), stored(1, 0));
    assert_eq!(table.read(7, 720, 300), fresh(1, 510));
    table.evict(0).unwrap();
    assert_eq!(table.set(7, 1, 80, 300), stored(1, 0));
    assert_eq!(table.read(7, 720, 300), fresh(1, 500));
}

#[test]
fn a_clock_that_ran_ahead() {
    let mut memory = lent(slots(8), 4, items(1));
    let mut table = holding(&mut memory);
    assert_eq!(table.set(7, 1, 5000, 5000), stored(0, 0));
    // Put right, it makes every true list late, until she is deleted.
    assert_eq!(table.read(7, 720, 900), Ok(Reading::Ahead));
    assert_eq!(refused(&mut table, 7, 900, 900), Refusal::Late);
    assert_eq!(table.read(7, 720, 5000), fresh(1, 720));
    table.delete(7).unwrap();
    assert_eq!(table.set(7, 1, 900, 900), stored(1, 0));
    assert_eq!(table.read(7, 720, 900), fresh(1, 720));
}

#[test]
fn records() {
    let mut memory = lent(slots(2), 1, items(1));
    let mut table = memory.table();
    table.fresh().unwrap();
    table.set(1, 5, 2, 2).unwrap();
    let mut buffer = [0; 20];
    let list = table.list(&mut buffer).unwrap();
    assert_eq!(list.bytes(), [1, 0, 0, 0, 0, 0, 0, 0, 5, 0, 0, 0, 2, 0, 0, 0, 0, 0, 0, 0]);
    let every = [8, 7, 6, 5, 4, 3, 2, 1, 0xfc, 0xfd, 0xfe, 0xff, 0x88, 0x77, 0x66, 0x55, 0x44, 0x33, 0x22, 0x91];
    let record = Record { animal: 0x0102030405060708, permission: 0xfffefdfc, stamp: 0x9122334455667788 };
    assert_eq!(Records::of(&every).collect::<Vec<_>>(), [record]);
}

#[test]
fn room_is_made() {
    let mut memory = lent(slots(4), 4, items(9));
    let mut table = memory.table();
    table.fresh().unwrap();
    for animal in [358, 687, 1012, 1334, 248, 734, 913, 1710] {
        assert_eq!(table.set(animal, 1, 100, 100), stored(1, 0));
    }
    assert_eq!(table.set(5, 1, 100, 100), stored(5, 1));
    assert_eq!((table.slots[12], table.counters[0]), (131074, 20));
    assert_eq!(table.read(1012, 720, 100), fresh(1, 720));
    assert_eq!(table.set(6, 1, 100, 100), Err(Refusal::NoPlace));

    let mut memory = lent(slots(2), 1, items(9));
    let mut table = memory.table();
    table.fresh().unwrap();
    for animal in 1..=8 {
        assert_eq!(table.set(animal, 1, 100, 100), stored(1, 0));
    }
    assert_eq!(table.set(9, 1, 100, 100), Err(Refusal::NoRoom));
    assert_eq!(table.delete(4), Ok(()));
    assert_eq!(table.set(9, 1, 100, 100), stored(2, 0));
}

#[test]
fn the_hand() {
    let mut memory = lent(slots(2), 1, items(3));
    let mut table = memory.table();
    table.fresh().unwrap();
    assert_eq!(table.evict(0), Err(Refusal::Nobody));
    for animal in 1..=3 {
        table.set(animal, 1, 100, 100).unwrap();
    }
    assert_eq!(table.evict(3), Err(Refusal::BadShape));
    assert_eq!(table.evict(1), Ok(Evicted { victim: 2, looked: 4, hand: 2 }));

    // Alone, and here lately: two turns. First with no more than the mark taken from her.
    table.fresh().unwrap();
    table.set(1, 1, 100, 100).unwrap();
    assert_eq!(table.evict_cut(1, 1), Ok(Evicted { victim: 1, looked: 6, hand: 1 }));
    assert_eq!(table.items[..4], [1, 1, 100, 0]);
    assert_eq!(table.serve(1, 720, 100), fresh(1, 720));
    assert_eq!(table.items[3], 1);
    assert_eq!(table.evict(1), Ok(Evicted { victim: 1, looked: 6, hand: 1 }));
    assert_eq!(table.read(1, 720, 100), Ok(Reading::Absent));
}

#[test]
fn the_power_goes() {
    for k in 0..=8 {
        let mut memory = lent(slots(4), 1, items(5));
        let mut table = memory.table();
        table.fresh().unwrap();
        // Seven stores of a new entry: busy between the first and the last.
        assert_eq!(table.set_cut(7, 5, 90, 100, k), stored(1, 0));
        let said = table.read(7, 720, 100);
        match k {
            0 => assert_eq!(said, Ok(Reading::Absent)),
            1..=6 => {
                assert_eq!(said, Err(Refusal::Busy));
                assert_eq!(lane(said), Lane::Holding);
                assert_eq!(table.set(7, 5, 100, 100), Err(Refusal::Busy));
                assert_eq!(table.delete(7), Err(Refusal::Busy));
                assert_eq!(table.find(7), Err(Refusal::Busy));
            }
            _ => assert_eq!(said, fresh(5, 710)),
        }
        // Only fresh helps. Seven stores of a delete, of one that is retired too.
        for (stamp, whole) in [(90, fresh(5, 710)), (RETIRED_MARK, RETIRED)] {
            table.fresh().unwrap();
            assert_eq!(table.set_cut(7, 5, 90, 100, ALL_STORES), stored(1, 0));
            table.items[2] = stamp;
            assert_eq!(table.delete_cut(7, k), Ok(()));
            match (k, table.read(7, 720, 100)) {
                (0, said) => assert_eq!(said, whole),
                (1..=6, said) => assert_eq!(said, Err(Refusal::Busy)),
                (_, said) => assert_eq!(said, Ok(Reading::Absent)),
            }
        }
    }
}

#[test]
fn a_damaged_word() {
    let mut memory = lent(slots(4), 4, items(5));
    let mut table = memory.table();
    table.fresh().unwrap();
    table.set(1, 1, 100, 100).unwrap();
    for word in [4, 16777216, 65541] {
        table.slots[1] = word;
        assert_eq!(table.read(1, 720, 110), Err(Refusal::Damaged));
    }
    table.slots[1] = 65540;
    assert_eq!(table.read(1, 720, 110), fresh(1, 710));
}

// Plain read over the table and over its items alone, which say the same.
fn plainly(table: &Table, animal: u64, limit: u64, now: u64) -> Result<Reading, Refusal> {
    let said = plain_read(table.items, animal, limit, now);
    assert_eq!(table.plain_read(animal, limit, now), said);
    said
}

// Plain read answers as read: for these animals, 0 and absent ones, and for bad limits and minutes too.
fn agree(table: &Table, animals: &[u64]) {
    for animal in animals.iter().copied().chain([0, 4799, u64::MAX]) {
        for limit in [0, 12, 720, LARGEST_LIMIT, LARGEST_LIMIT + 1, u64::MAX] {
            for now in [0, 99, 100, 820, 821, 900, 902, 903, 10180, 10181, u64::MAX - 1, u64::MAX] {
                let (plain, read) = (plainly(table, animal, limit, now), table.read(animal, limit, now));
                assert_eq!(plain, read, "animal {animal}, limit {limit}, minute {now}");
            }
        }
    }
}

#[test]
fn plain_read_over_a_day() {
    let mut memory = lent(32, 4, items(5));
    let mut table = memory.table();
    let day: [fn(&mut Table) -> bool; 17] = [
        |t| t.fresh().is_ok(),
        |t| t.set(4711, 1, 100, 100).is_ok(),
        |t| t.set(4712, 0, 100, 100).is_ok(),
        |t| t.set(4713, u32::MAX, 100, 100).is_ok(),
        |t| t.serve(4711, 720, 820) == fresh(1, 0),
        |t| t.set(900, 2, 60, 840).is_ok(),
        |t| std::mem::replace(&mut t.items[14], RETIRED_MARK) == 60, // as a table from before 4.0.0 has him
        |t| t.set(4711, 3, 890, 900).is_ok(),
        |t| t.set(4711, 1, 100, 902) == Err(Refusal::Late),
        |t| t.delete(4711).is_ok(), // place 0 is vacant now
        |t| t.delete(4711) == Err(Refusal::Nobody),
        |t| t.set(4714, 1, 890, 902).is_ok(),
        |t| t.set(4715, 1, 902, 902).is_ok(),
        |t| t.set(900, 2, 60, 902) == stored(0, 0),
        |t| t.set(4716, 1, 902, 902) == Err(Refusal::NoPlace),
        |t| t.evict(1).is_ok(),
        |t| t.set(4716, 1, 902, 902).is_ok(),
    ];
    for step in day {
        assert!(step(&mut table));
        agree(&table, &[4711, 4712, 4713, 900, 4714, 4715, 4716]);
    }

    // And where an entry is moved to make room.
    let herd = [358, 687, 1012, 1334, 248, 734, 913, 1710, 5];
    let mut memory = lent(slots(4), 4, items(9));
    let mut table = memory.table();
    table.fresh().unwrap();
    for animal in herd {
        table.set(animal, 1, 100, 100).unwrap();
        agree(&table, &herd);
    }
}

#[test]
fn plain_read_judges() {
    // She is in the last place, behind a vacant one.
    let mut memory = lent(slots(2), 1, items(3));
    let table = memory.table();
    table.items.copy_from_slice(&[8, 1, 50, 1, 0, 0, 0, 0, 7, 5, 100, 0]);
    assert_eq!(plainly(&table, 7, 720, 820), fresh(5, 0));
    assert_eq!(plainly(&table, 7, 720, 821), Ok(Reading::Old { left: -1 }));
    assert_eq!(plainly(&table, 7, 720, 99), Ok(Reading::Ahead));
    assert_eq!(plainly(&table, 7, LARGEST_LIMIT, 10180), fresh(5, 0));
    assert_eq!(plainly(&table, 7, 0, u64::MAX - 1), Ok(Reading::Old { left: LEAST_LEFT }));
    assert_eq!(plainly(&table, 8, 720, 770), fresh(1, 0));
    assert_eq!(plainly(&table, 9, 720, 820), Ok(Reading::Absent));
    assert_eq!(plainly(&table, 7 + (1 << 32), 720, 820), Ok(Reading::Absent));
    // It marks nobody.
    assert_eq!(table.items[8..], [7, 5, 100, 0]);

    // A permission word above 32 bits is told modulo 2^32.
    for (word, permission) in [(5 + (1 << 32), 5), (1 << 32, 0), (u64::MAX, u32::MAX)] {
        table.items[9] = word;
        assert_eq!(plainly(&table, 7, 720, 820), fresh(permission, 0));
    }
    table.items[10] = RETIRED_MARK;
    assert_eq!(plainly(&table, 7, 0, 0), RETIRED);
    assert_eq!(plainly(&table, 7, LARGEST_LIMIT, 100), RETIRED);
    assert_eq!(plainly(&table, 7, 720, u64::MAX - 1), RETIRED);

    // Twins: the first place decides, whatever the other one is.
    table.items.copy_from_slice(&[8, 1, 50, 1, 7, 6, 100, 1, 7, 5, 110, 1]);
    assert_eq!(plainly(&table, 7, 720, 820), fresh(6, 0));
    assert_eq!(plainly(&table, 7, 720, 821), Ok(Reading::Old { left: -1 }));
    table.items[6] = 900;
    assert_eq!(plainly(&table, 7, 720, 820), Ok(Reading::Ahead));
    table.items[6] = RETIRED_MARK;
    assert_eq!(plainly(&table, 7, 720, 820), RETIRED);
    table.items.copy_from_slice(&[8, 1, 50, 1, 7, 6, 100, 1, 7, 5, RETIRED_MARK, 1]);
    assert_eq!(plainly(&table, 7, 720, 820), fresh(6, 0));
}

#[test]
fn plain_read_refuses() {
    let mut memory = lent(slots(2), 1, 20000);
    for length in [0, 3, 4, 5, 6, 7, 8, 16380, 16383, 16384, 16385, 16388, 20000] {
        let words = &mut memory.items[..length];
        words.fill(0);
        // She is in the last place.
        let last = (length / 4).saturating_sub(1) * 4;
        if length >= 4 {
            words[last..last + 4].copy_from_slice(&[7, 5, 100, 1]);
        }
        let good = [4, 8, 16380, 16384].contains(&length);
        let said = if good { fresh(5, 10) } else { Err(Refusal::BadShape) };
        assert_eq!(plain_read(words, 7, 720, 810), said, "{length}");
        // Its turn is before those of the animal and the times, in this order.
        let first = |otherwise| Err(if good { otherwise } else { Refusal::BadShape });
        assert_eq!(plain_read(words, 0, 720, 820), first(Refusal::NoAnimal));
        assert_eq!(plain_read(words, 0, LARGEST_LIMIT + 1, 820), first(Refusal::NoAnimal));
        assert_eq!(plain_read(words, 0, 720, u64::MAX), first(Refusal::NoAnimal));
        assert_eq!(plain_read(words, 7, LARGEST_LIMIT + 1, 820), first(Refusal::BadTime));
        assert_eq!(plain_read(words, 9, 720, u64::MAX), first(Refusal::BadTime));
        if length == 8 {
            // One place is lent, and she is behind it.
            assert_eq!(plain_read(&words[..4], 7, 720, 820), Ok(Reading::Absent));
        }
    }

    // Slots and counters of wrong lengths are no refusal.
    for (s, c) in [(0, 0), (12, 1), (8, 0), (16384, 1), (8, 1025)] {
        let mut memory = lent(s, c, items(1));
        let table = memory.table();
        table.items.copy_from_slice(&[7, 5, 100, 1]);
        assert_eq!(table.read(7, 720, 820), Err(Refusal::BadShape));
        assert_eq!(plainly(&table, 7, 720, 820), fresh(5, 0));
    }
}

#[test]
fn plain_read_walks_on() {
    // Busy: each store of a new entry is seen, and a permission 5 with no stamp yet looks fresh.
    for k in 1..=6 {
        let mut memory = lent(slots(4), 1, items(5));
        let mut table = memory.table();
        table.fresh().unwrap();
        assert_eq!(table.set_cut(7, 5, 90, 100, k), stored(1, 0));
        assert_eq!(table.read(7, 720, 100), Err(Refusal::Busy));
        let half = [Ok(Reading::Absent), fresh(0, 620), fresh(5, 620), fresh(5, 710)];
        assert_eq!(plainly(&table, 7, 720, 100), half[(k as usize - 1).min(3)]);
    }

    let mut memory = lent(slots(4), 4, items(5));
    let mut table = memory.table();
    table.fresh().unwrap();
    table.set(1, 1, 100, 100).unwrap();
    let slot = table.slots.iter().position(|word| *word != 0).unwrap();
    for (word, said) in [(0xdead_beef, Err(Refusal::Damaged)), (0, Ok(Reading::Absent))] {
        table.slots[slot] = word;
        assert_eq!(table.read(1, 720, 110), said);
        assert_eq!(plainly(&table, 1, 720, 110), fresh(1, 710));
    }
}

// Judge over the table and over its slices, which say the same: None for a yes, or the condition and where.
fn judged(table: &Table) -> Option<(Condition, usize)> {
    let said = judge(table.slots, table.counters, table.items);
    assert_eq!(table.judge(), said);
    match said {
        Judgement::Sound => None,
        Judgement::Broken { condition, at } => Some((condition, at)),
    }
}

// Animals 11, 13 and 14 at places 0, 2 and 3; 1 and 4 are vacant. Of two buckets each slot is a home.
fn herd(memory: &mut Memory) -> Table<'_> {
    let mut table = memory.table();
    table.fresh().unwrap();
    for animal in 11..=14 {
        table.set(animal, 1, 100, 100).unwrap();
    }
    table.delete(12).unwrap();
    assert_eq!(judged(&table), None);
    table
}

#[test]
fn judge_over_a_day() {
    let mut memory = lent(32, 4, items(5));
    let mut table = memory.table();
    let day: [fn(&mut Table) -> bool; 17] = [
        |t| t.fresh().is_ok(),
        |t| t.set(4711, 1, 100, 100).is_ok(),
        |t| t.set(4712, 0, 100, 100).is_ok(),
        |t| t.set(4713, u32::MAX, 100, 100).is_ok(),
        |t| t.serve(4711, 720, 820) == fresh(1, 0),
        |t| t.set(900, 2, 60, 840).is_ok(),
        |t| std::mem::replace(&mut t.items[14], RETIRED_MARK) == 60, // as a table from before 4.0.0 has him
        |t| t.set(4711, 3, 890, 900).is_ok(),
        |t| t.set(4711, 1, 100, 902) == Err(Refusal::Late),
        |t| t.delete(4711).is_ok(), // place 0 is vacant now
        |t| t.delete(4711) == Err(Refusal::Nobody),
        |t| t.set(4714, 1, 890, 902).is_ok(),
        |t| t.set(4715, 1, 902, 902).is_ok(),
        |t| t.set(900, 2, 60, 902) == stored(0, 0),
        |t| t.set(4716, 1, 902, 902) == Err(Refusal::NoPlace),
        |t| t.evict(1).is_ok(),
        |t| t.set(4716, 1, 902, 902).is_ok(),
    ];
    for step in day {
        assert!(step(&mut table));
        assert_eq!(judged(&table), None);
    }

    // And where an entry is moved to make room.
    let mut memory = lent(slots(4), 4, items(9));
    let mut table = memory.table();
    table.fresh().unwrap();
    for animal in [358, 687, 1012, 1334, 248, 734, 913, 1710, 5] {
        table.set(animal, 1, 100, 100).unwrap();
        assert_eq!(judged(&table), None);
    }
}

#[test]
fn judge_lengths() {
    for (s, c, i, run) in [
        (8, 1, 4, None),
        (8192, 1024, 16384, None),
        (4, 1, 4, Some(0)),
        (12, 1, 4, Some(0)),
        (16384, 1, 4, Some(0)),
        (8, 0, 4, Some(1)),
        (8, 1025, 4, Some(1)),
        (8, 1, 0, Some(2)),
        (8, 1, 6, Some(2)),
        (8, 1, 16388, Some(2)),
        (0, 0, 0, Some(0)),
        (12, 0, 4, Some(0)),
        (12, 1, 6, Some(0)),
        (8, 0, 6, Some(1)),
    ] {
        let (slots, counters, items) = (vec![0; s], vec![0; c], vec![0; i]);
        let said = match run {
            None => Judgement::Sound,
            Some(at) => Judgement::Broken { condition: Condition::WrongLength, at },
        };
        assert_eq!(judge(&slots, &counters, &items), said, "{s} {c} {i}");
    }
}

// Words of the three runs: run, index, word.
type Change = (usize, usize, u64);

#[test]
fn judge_conditions() {
    let mut memory = lent(slots(2), 3, items(5));
    let table = herd(&mut memory);
    let good = (table.slots.to_vec(), table.counters.to_vec(), table.items.to_vec());
    let slot_of = |place| good.0.iter().position(|word| *word != 0 && *word as usize % 65536 == place).unwrap();
    let word_of = |place| u64::from(good.0[slot_of(place)]);
    let free: Vec<usize> = (0..8).filter(|slot| good.0[*slot] == 0).collect();
    // What is said of the herd with these changes.
    let broken = |changes: &[Change]| {
        let mut memory = Memory { slots: good.0.clone(), counters: good.1.clone(), items: good.2.clone() };
        for (run, index, word) in changes.iter().copied() {
            match run {
                0 => memory.slots[index] = word as u32,
                1 => memory.counters[index] = word as u32,
                _ => memory.items[index] = word,
            }
        }
        judged(&memory.table())
    };

    // Damaged words: no tag, a tag or a place that is too large. The lowest is told.
    for damage in [4, 256 * 65536, 65536 + 5, u64::from(u32::MAX)] {
        for slot in 0..8 {
            assert_eq!(broken(&[(0, slot, damage)]), Some((Condition::DamagedWord, slot)));
            assert_eq!(broken(&[(0, slot, damage), (0, 7, damage)]), Some((Condition::DamagedWord, slot)));
        }
    }
    // Odd counters, one of which no call looks at.
    for n in 0..3 {
        let odd = [(1, n, 1), (1, 2, u64::from(u32::MAX))];
        assert_eq!(broken(&odd), Some((Condition::OddCounter, n)));
        assert_eq!(broken(&[(1, n, u64::from(u32::MAX - 1))]), None);
    }
    // A slot that points to a vacant place, or with another tag.
    let strays = [(0, free[1], 65536 + 4), (0, free[2], 65536 + 1)];
    assert_eq!(broken(&strays), Some((Condition::StraySlot, free[1])));
    for place in [0, 2, 3] {
        let (slot, word) = (slot_of(place), word_of(place));
        assert_eq!(broken(&[(0, slot, word ^ 65536)]), Some((Condition::StraySlot, slot)));
        // No slot for her place; two; her word in another slot.
        assert_eq!(broken(&[(0, slot, 0)]), Some((Condition::NotOneSlot, place)));
        assert_eq!(broken(&[(0, free[0], word)]), Some((Condition::NotOneSlot, place)));
        assert_eq!(broken(&[(0, slot, 0), (0, free[0], word)]), None);
        // Twins: the lower place is told. Where the second has no slot, that comes first.
        for second in [1, 4] {
            let entry = word / 65536 * 65536 + second as u64;
            let twin = [(2, 4 * second, good.2[4 * place]), (0, free[0], entry)];
            assert_eq!(broken(&twin), Some((Condition::Twin, place.min(second))));
            assert_eq!(broken(&twin[..1]), Some((Condition::NotOneSlot, second)));
        }
    }
    assert_eq!(broken(&[(0, slot_of(3), 0), (0, slot_of(2), 0)]), Some((Condition::NotOneSlot, 2)));
    // A wide permission, where taken or vacant: that comes before a vacant place that is not all 0.
    for place in 0..5 {
        let wide = [(2, 4 * place + 1, 1 << 32), (2, 4 + 2, 5)];
        assert_eq!(broken(&wide), Some((Condition::WidePermission, place)));
        for (part, word) in [(1, u64::from(u32::MAX)), (2, 1), (2, RETIRED_MARK), (3, 1), (3, u64::MAX)] {
            let vacant = place == 1 || place == 4;
            let said = if vacant { Some((Condition::VacantNotZero, place)) } else { None };
            assert_eq!(broken(&[(2, 4 * place + part, word)]), said);
        }
    }
    // All at once, and one after the other is put right.
    let every = [
        (2, 4 + 2, 1),
        (2, 4 * 3 + 1, u64::MAX),
        (2, 4 * 4, good.2[4 * 2]),
        (0, free[0], word_of(2) / 65536 * 65536 + 4),
        (0, slot_of(3), 0),
        (0, free[1], 65536 + 1),
        (1, 2, 7),
        (0, free[2], 5),
    ];
    for (kept, said) in [
        (8, Some((Condition::DamagedWord, free[2]))),
        (7, Some((Condition::OddCounter, 2))),
        (6, Some((Condition::StraySlot, free[1]))),
        (5, Some((Condition::NotOneSlot, 3))),
        (4, Some((Condition::Twin, 2))),
        (2, Some((Condition::WidePermission, 3))),
        (1, Some((Condition::VacantNotZero, 1))),
        (0, None),
    ] {
        assert_eq!(broken(&every[..kept]), said);
    }
}

#[test]
fn judge_of_a_cut_call() {
    // Who is retired is cut as any other.
    fn retire(table: &mut Table) -> bool {
        std::mem::replace(&mut table.items[2], RETIRED_MARK) == 100
    }
    let calls: [(u64, fn(&mut Table, u64) -> bool); 6] = [
        (7, |t, k| t.set_cut(15, 5, 90, 100, k).is_ok()),
        (5, |t, k| t.set_cut(11, 5, 100, 100, k).is_ok()),
        (5, |t, k| retire(t) && t.set_cut(11, 5, 90, 100, k).is_ok()),
        (7, |t, k| t.delete_cut(11, k).is_ok()),
        (7, |t, k| retire(t) && t.delete_cut(11, k).is_ok()),
        // Three marks are taken first, and that leaves it sound.
        (7, |t, k| t.evict_cut(0, k + 3).is_ok()),
    ];
    for (stores, cut) in calls {
        for k in 0..=8 {
            let mut memory = lent(slots(2), 3, items(5));
            let mut table = herd(&mut memory);
            assert!(cut(&mut table, k));
            let odd = Some((Condition::OddCounter, 0));
            assert_eq!(judged(&table), if 0 < k && k < stores { odd } else { None }, "{k} of {stores}");
            table.fresh().unwrap();
            assert_eq!(judged(&table), None);
        }
    }
}

#[test]
fn judge_of_another_workshop() {
    // The same herd in other places and slots, with other even counters and recent words.
    let mut memory = lent(slots(2), 3, items(5));
    let own = herd(&mut memory);
    let tag = |place| own.slots.iter().find(|word| **word != 0 && **word % 65536 == place).unwrap() / 65536 * 65536;
    let (eleven, thirteen, fourteen) = (tag(0), tag(2), tag(3));
    let mut memory = Memory {
        slots: vec![0, 0, fourteen, 0, 0, eleven + 4, 0, thirteen + 1],
        counters: vec![40, u32::MAX - 1, 6],
        items: vec![14, 1, 100, 7, 13, 1, RETIRED_MARK, 0, 0, 0, 0, 0, 0, 0, 0, 0, 11, 1, 100, u64::MAX],
    };
    let mut table = memory.table();
    assert_eq!(judged(&table), None);
    let day: [fn(&mut Table) -> bool; 8] = [
        |t| t.read(11, 720, 820) == fresh(1, 0),
        |t| t.serve(13, 720, 820) == RETIRED && t.items[7] == 0,
        |t| t.set(13, 1, 50, 820) == stored(0, 0),
        |t| t.serve(13, 720, 770) == fresh(1, 0),
        |t| t.delete(14).is_ok(),
        |t| t.set(15, 2, 200, 200).is_ok(),
        |t| t.set(11, 3, 200, 200) == stored(0, 0),
        |t| t.evict(0) == Ok(Evicted { victim: 15, looked: 6, hand: 1 }),
    ];
    for step in day {
        assert!(step(&mut table));
        assert_eq!(judged(&table), None);
        agree(&table, &[11, 13, 14, 15]);
    }
}

#[test]
fn judgements() {
    for number in 1..=8 {
        assert_eq!(Condition::from_number(number).number(), number);
        assert_ne!(Condition::from_number(number), Condition::Unknown(number));
    }
    assert_eq!(Condition::from_number(8), Condition::VacantNotZero);
    assert_eq!(Condition::from_number(9), Condition::Unknown(9));
    assert_eq!(Condition::OddCounter.to_string(), "a counter is odd");
    assert_eq!(Judgement::Sound.to_string(), "sound");
    let twin = Judgement::Broken { condition: Condition::Twin, at: 2 };
    assert_eq!(twin.to_string(), "condition 6 at 2: two places hold the same animal");
}

// N = 4: buckets 0, 1 and 3 are full, and 2 is empty. 17, of buckets 0 and 1, needs two moves.
const CROWD: [u64; 12] = [1, 5, 9, 13, 12, 16, 20, 24, 2, 6, 10, 14];
// N = 16: 625 needs four.
const LARGE_CROWD: [u64; 20] =
    [58, 186, 353, 512, 31, 63, 159, 239, 368, 69, 286, 414, 464, 100, 180, 371, 593, 119, 215, 344];

// A table that holds them.
fn crowded<'a>(memory: &'a mut Memory, animals: &[u64]) -> Table<'a> {
    let mut table = memory.table();
    table.fresh().unwrap();
    for animal in animals {
        table.set(*animal, 1, 100, 100).unwrap();
    }
    table
}

// The moves of a plan as numbers.
fn numbers(plan: &Plan) -> Vec<(usize, u32, usize)> {
    plan.moves().iter().map(|planned| (planned.from, planned.tag, planned.to)).collect()
}

// Plan, which changes no word.
fn plan(table: &Table, animal: u64) -> Result<Plan, Refusal> {
    let before = words(table);
    let said = table.plan(animal, 2, 100, 130);
    assert_eq!(words(table), before);
    said
}

// A move for 17. Where it is made, two slots and one counter change, by 2; where not, nothing does.
fn step_move(table: &mut Table, from: usize, tag: u32, to: usize) -> Result<(), Refusal> {
    let mut then = words(table);
    let said = table.step_move(Move { from, tag, to }, 17, 2, 100, 130);
    if said.is_ok() {
        then.0[to] = std::mem::take(&mut then.0[from]);
        let n = (0..then.1.len()).find(|n| table.counters[*n] != then.1[*n]).unwrap();
        then.1[n] += 2;
    }
    assert_eq!(words(table), then);
    said
}

// The final store of an animal. Where it is made, one place, a slot and a counter change; where not, nothing does.
fn step_enter(table: &mut Table, place: usize, slot: usize, animal: u64) -> Result<(), Refusal> {
    let mut then = words(table);
    let said = table.step_enter(place, slot, animal, 2, 100, 130);
    if said.is_ok() {
        then.0[slot] = table.slots[slot];
        let n = (0..then.1.len()).find(|n| table.counters[*n] != then.1[*n]).unwrap();
        then.1[n] += 2;
        then.2[4 * place..4 * place + 4].copy_from_slice(&[animal, 2, 100, 1]);
        assert_eq!(table.slots[slot] as usize % 65536, place);
    }
    assert_eq!(words(table), then);
    said
}

#[test]
fn a_set_in_steps() {
    let mut memory = lent(slots(4), 4, items(14));
    let mut table = crowded(&mut memory, &CROWD);
    let said = plan(&table, 17).unwrap();
    // 6, with tag 225, goes from slot 13 to 8, then 1, with tag 62, from 0 to 13.
    assert_eq!((numbers(&said), said.place, said.slot), (vec![(13, 225, 8), (0, 62, 13)], 12, 0));
    assert_eq!(said.moves()[1], Move { from: 0, tag: 62, to: 13 });

    // Between the steps 6 is served, 20 leaves and 3 comes. A move changes no answer, nor does the final store.
    let here = [1, 5, 6, 9, 10, 14];
    let answers = |table: &Table| here.map(|animal| table.read(animal, 720, 130));
    let before = answers(&table);
    assert_eq!(table.serve(6, 720, 130), fresh(1, 690));
    assert_eq!(table.step_move(said.moves()[0], 17, 2, 100, 130), Ok(()));
    assert_eq!((answers(&table), judged(&table)), (before, None));
    assert_eq!(table.serve(6, 720, 130), fresh(1, 690));
    assert_eq!(table.delete(20), Ok(()));
    assert_eq!(table.set(3, 1, 100, 130), stored(1, 0));
    assert_eq!(table.step_move(said.moves()[1], 17, 2, 100, 130), Ok(()));
    assert_eq!((answers(&table), judged(&table)), (before, None));
    assert_eq!(table.serve(17, 720, 130), Ok(Reading::Absent));
    // 12 leaves place 4, and that is the lowest vacant one; 17 gets the planned one. What the step says is stored.
    assert_eq!(table.delete(12), Ok(()));
    assert_eq!(table.step_enter(said.place, said.slot, 17, u32::MAX, 120, 131), Ok(()));
    assert_eq!((answers(&table), judged(&table)), (before, None));
    assert_eq!(table.find(17), Ok(Some(12)));
    assert_eq!(table.serve(17, 720, 131), fresh(u32::MAX, 709));
    assert_eq!(table.items[48..52], [17, u64::from(u32::MAX), 120, 1]);
}

#[test]
fn steps_leave_what_a_set_leaves() {
    let one = [358, 687, 1012, 1334, 248, 734, 913, 1710];
    let shapes: [(usize, usize, &[u64], u64, usize); 5] = [
        (4, 4, &CROWD[..3], 17, 0),
        (4, 4, &one, 5, 1),
        (4, 1, &CROWD, 17, 2),
        (16, 8, &LARGE_CROWD[..19], 625, 3),
        (16, 8, &LARGE_CROWD, 625, 4),
    ];
    for (n, v, herd, animal, moves) in shapes {
        let (mut memory, mut other) = (lent(slots(n), v, items(22)), lent(slots(n), v, items(22)));
        let (mut table, mut set) = (crowded(&mut memory, herd), crowded(&mut other, herd));
        let said = plan(&table, animal).unwrap();
        assert_eq!((said.moves().len(), said.place), (moves, herd.len()));
        assert_eq!(set.set(animal, 7, 110, 130).unwrap().moves, moves);
        for planned in said.moves() {
            assert_eq!(table.step_move(*planned, animal, 7, 110, 130), Ok(()));
            assert_eq!(judged(&table), None);
        }
        assert_eq!(table.step_enter(said.place, said.slot, animal, 7, 110, 130), Ok(()));
        assert_eq!(words(&table), words(&set));
    }
    // The four moves, by number.
    let mut memory = lent(slots(16), 8, items(22));
    let said = plan(&crowded(&mut memory, &LARGE_CROWD), 625).unwrap();
    assert_eq!(numbers(&said), [(9, 173, 12), (6, 247, 9), (3, 189, 6), (63, 51, 3)]);
    assert_eq!((said.moves().len(), said.place, said.slot), (MOST_MOVES, 20, 63));
}

#[test]
fn a_stale_step() {
    let mut memory = lent(slots(4), 4, items(13));
    let mut table = crowded(&mut memory, &CROWD);
    let old = plan(&table, 17).unwrap();
    // 6 leaves, so nobody is there to be moved; a new plan wants one move less.
    table.delete(6).unwrap();
    assert_eq!(step_move(&mut table, 13, 225, 8), Err(Refusal::NotAsPlanned));
    let new = plan(&table, 17).unwrap();
    assert_eq!((numbers(&new), new.place, new.slot), (vec![(0, 62, 13)], 9, 0));
    assert_eq!(step_move(&mut table, 0, 62, 13), Ok(()));
    // Made once, it can't be made again.
    assert_eq!(step_move(&mut table, 0, 62, 13), Err(Refusal::NotAsPlanned));
    // Another one takes the planned place: she is entered into the next.
    table.set(6, 1, 100, 130).unwrap();
    assert_eq!(step_enter(&mut table, new.place, new.slot, 17), Err(Refusal::NotAsPlanned));
    assert_eq!(step_enter(&mut table, old.place, old.slot, 17), Ok(()));
    // And only once. A move is made where she is held, too; but who is held can't be planned for, only set.
    assert_eq!(step_enter(&mut table, new.place, new.slot, 17), Err(Refusal::NotAsPlanned));
    assert_eq!(plan(&table, 17), Err(Refusal::NotAsPlanned));
    table.delete(5).unwrap();
    assert_eq!(step_move(&mut table, 13, 62, 1), Ok(()));
    assert_eq!(table.set(17, 1, 120, 130), stored(0, 0));
    assert_eq!(judged(&table), None);

    // A set takes the slot that was the last to be freed.
    let mut memory = lent(slots(4), 4, items(14));
    let mut table = crowded(&mut memory, &CROWD);
    let old = plan(&table, 17).unwrap();
    for planned in old.moves() {
        assert_eq!(step_move(&mut table, planned.from, planned.tag, planned.to), Ok(()));
    }
    assert_eq!(table.set(21, 1, 100, 130), stored(1, 0));
    assert_eq!(step_enter(&mut table, 13, old.slot, 17), Err(Refusal::NotAsPlanned));
    let new = plan(&table, 17).unwrap();
    for planned in new.moves() {
        assert_eq!(step_move(&mut table, planned.from, planned.tag, planned.to), Ok(()));
    }
    assert_eq!(step_enter(&mut table, new.place, new.slot, 17), Ok(()));
    assert_eq!((table.find(21), table.find(17)), (Ok(Some(12)), Ok(Some(13))));
    assert_eq!(judged(&table), None);
}

#[test]
fn a_move_not_as_planned() {
    const WRONG: Result<(), Refusal> = Err(Refusal::NotAsPlanned);
    let mut memory = lent(slots(4), 4, items(14));
    let mut table = crowded(&mut memory, &CROWD);
    // Slots that are not there. Some would be if they were cut to 32 bits.
    for beyond in [16, 1 << 8, 1 << 32, 1 << 63, usize::MAX - 15] {
        assert_eq!(step_move(&mut table, beyond, 225, 8), WRONG);
        assert_eq!(step_move(&mut table, beyond + 13, 225, 8), WRONG);
        assert_eq!(step_move(&mut table, 13, 225, beyond), WRONG);
        assert_eq!(step_move(&mut table, 13, 225, beyond + 8), WRONG);
    }
    // Another tag. Most have bucket 2 as well; some would be 225 if they were cut to 8 or 16 bits.
    for tag in [0, 1, 224, 226, 227, 225 + 256, 225 + 65536, 225 << 16, u32::MAX] {
        assert_eq!(step_move(&mut table, 13, tag, 8), WRONG);
    }
    // The source is free: its tag would be 0. Slot 14 is free too, and in the other bucket of each of these tags.
    table.delete(10).unwrap();
    for tag in [0, 225, 62] {
        assert_eq!(step_move(&mut table, 9, tag, 14), WRONG);
    }
    // The source is damaged: tag 0, tag 256, a place that is not there.
    let word = table.slots[13];
    for (damaged, tag) in [(9, 0), (256 * 65536 + 9, 256), (225 * 65536 + 14, 225), (u32::MAX, 65535)] {
        table.slots[13] = damaged;
        assert_eq!(step_move(&mut table, 13, tag, 8), WRONG);
        assert_eq!(step_move(&mut table, 13, 225, 8), WRONG);
    }
    table.slots[13] = word;
    // The destination is taken, by whatever word.
    for taken in [word, 65536, 7, u32::MAX] {
        table.slots[8] = taken;
        assert_eq!(step_move(&mut table, 13, 225, 8), WRONG);
    }
    table.slots[8] = 0;
    // The destination is in another bucket, or in its own, or is the source.
    table.delete(9).unwrap();
    table.delete(16).unwrap();
    for to in [2, 5, 14, 13] {
        assert_eq!(step_move(&mut table, 13, 225, to), WRONG);
    }
    // Any slot of the other bucket will do, there and back.
    for to in 8..12 {
        assert_eq!(step_move(&mut table, 13, 225, to), Ok(()));
        assert_eq!(step_move(&mut table, to, 225, 14), Ok(()));
        assert_eq!(step_move(&mut table, 14, 225, to), Ok(()));
        assert_eq!(step_move(&mut table, to, 225, 13), Ok(()));
    }
    assert_eq!(judged(&table), None);
}

#[test]
fn a_final_store_not_as_planned() {
    const WRONG: Result<(), Refusal> = Err(Refusal::NotAsPlanned);
    let mut memory = lent(slots(4), 4, items(14));
    let mut table = crowded(&mut memory, &CROWD);
    step_move(&mut table, 13, 225, 8).unwrap();
    step_move(&mut table, 0, 62, 13).unwrap();
    // 1 is held, and slot 0 is in her bucket.
    assert_eq!(step_enter(&mut table, 12, 0, 1), WRONG);
    // A place that is not there; some would be if they were cut, or their first word's number were. Or it is taken.
    for place in [14, 12 + (1 << 16), 12 + (1 << 32), 12 + (1 << 62), 12 + (1 << 63), usize::MAX, 0, 9, 11] {
        assert_eq!(step_enter(&mut table, place, 0, 17), WRONG);
    }
    // A slot that is not there, is taken, or is in another bucket.
    for slot in [16, 1 << 32, 1 << 63, usize::MAX, 1, 4, 7, 8, 9, 11, 13] {
        assert_eq!(step_enter(&mut table, 12, slot, 17), WRONG);
    }
    assert_eq!(judged(&table), None);
    // Any vacant place will do, whatever is left in its other words; and any free slot of both buckets.
    table.delete(16).unwrap();
    for (place, slot) in [(12, 0), (13, 0), (5, 0), (12, 5), (13, 5), (5, 5)] {
        table.items[4 * place + 1..4 * place + 4].copy_from_slice(&[u64::MAX, 7, 7]);
        assert_eq!(step_enter(&mut table, place, slot, 17), Ok(()));
        assert_eq!(table.read(17, 720, 130), fresh(2, 690));
        assert_eq!(judged(&table), None);
        table.delete(17).unwrap();
    }
}

#[test]
fn plan_refuses() {
    let mut memory = lent(slots(4), 4, items(12));
    let table = crowded(&mut memory, &CROWD);
    // Who is held: by the same minute, by a later list, by a late one, and where she is retired. 12 comes before 5.
    for stamp in [100, 0, 130, RETIRED_MARK] {
        table.items[2] = stamp;
        assert_eq!(plan(&table, 1), Err(Refusal::NotAsPlanned));
    }
    assert_eq!(plan(&table, 17), Err(Refusal::NoPlace));
    let mut memory = lent(slots(2), 1, items(9));
    let mut table = crowded(&mut memory, &[1, 2, 3, 4, 5, 6, 7, 8]);
    assert_eq!(plan(&table, 9), Err(Refusal::NoRoom));
    assert_eq!(table.set(9, 2, 100, 130), Err(Refusal::NoRoom));
    // A damaged word beside the free slot that the search finds.
    let mut memory = lent(slots(4), 4, items(14));
    let mut crowd = crowded(&mut memory, &CROWD);
    crowd.slots[11] = 7;
    assert_eq!(plan(&crowd, 17), Err(Refusal::Damaged));
    assert_eq!(refused(&mut crowd, 17, 100, 130), Refusal::Damaged);
    // With a free slot in a home bucket no move is wanted.
    table.delete(4).unwrap();
    let said = plan(&table, 9).unwrap();
    assert_eq!((said.moves(), said.place), (&[][..], 3));
}

#[test]
fn steps_refuse_in_turn() {
    // One place and two buckets: every slot is a home, and the table is full.
    let mut memory = lent(slots(2), 1, items(1));
    let mut table = crowded(&mut memory, &[7]);
    let free = table.slots.iter().position(|word| *word == 0).unwrap();
    // All reasons at once, and one after the other is taken away.
    let says = |table: &mut Table, animal, issued, now| {
        let before = words(table);
        let none = Move { from: usize::MAX, tag: u32::MAX, to: usize::MAX };
        let said = [
            table.plan(animal, 2, issued, now).map(|_| ()),
            table.step_move(none, animal, 2, issued, now),
            table.step_enter(usize::MAX, usize::MAX, animal, 2, issued, now),
        ];
        assert_eq!(words(table), before);
        said.map(Result::unwrap_err)
    };
    for animal in [7, 8] {
        table.slots[free] = 65537;
        table.counters[0] = 3;
        let mut short = Table { slots: table.slots, counters: table.counters, items: &mut table.items[..3] };
        assert_eq!(says(&mut short, 0, 131, 130), [Refusal::BadShape; 3]);
        assert_eq!(says(&mut table, 0, 131, 130), [Refusal::NoAnimal; 3]);
        assert_eq!(says(&mut table, animal, 131, 130), [Refusal::BadTime; 3]);
        assert_eq!(says(&mut table, animal, 130, NO_MINUTE), [Refusal::BadTime; 3]);
        assert_eq!(says(&mut table, animal, 130, 130), [Refusal::Busy; 3]);
        table.counters[0] = 4;
        assert_eq!(says(&mut table, animal, 130, 130), [Refusal::Damaged; 3]);
        table.slots[free] = 0;
        let planned = if animal == 7 { Refusal::NotAsPlanned } else { Refusal::NoPlace };
        let last = [planned, Refusal::NotAsPlanned, Refusal::NotAsPlanned];
        assert_eq!(says(&mut table, animal, 130, 130), last);
    }
}

#[test]
fn lanes() {
    let by = |permission| lane(fresh(permission, 0));
    assert_eq!(
        [by(0), by(1), by(2), by(3), by(4)],
        [Lane::Holding, Lane::Milking, Lane::Grazing, Lane::Milking, Lane::Holding]
    );
    for held in [Ok(Reading::Absent), Ok(Reading::Old { left: -1 }), Ok(Reading::Ahead), Err(Refusal::Busy)] {
        assert_eq!(lane(held), Lane::Holding);
    }
}

#[test]
fn refusals() {
    for number in 1..=12 {
        assert_eq!(Refusal::from_number(number).number(), number);
        assert_ne!(Refusal::from_number(number), Refusal::Unknown(number));
    }
    assert_eq!(Refusal::from_number(11), Refusal::Late);
    assert_eq!(Refusal::from_number(12), Refusal::NotAsPlanned);
    assert_eq!(Refusal::from_number(13), Refusal::Unknown(13));
    assert_eq!(Refusal::Busy.to_string(), "busy: a write was cut off");
    assert_eq!(Refusal::Late.to_string(), "late: a permission that was issued later is held");
    let text = "the animal to plan for is held, or a step can't be made as planned";
    assert_eq!(Refusal::NotAsPlanned.to_string(), text);
}
