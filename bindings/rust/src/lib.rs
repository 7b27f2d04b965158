//! The table inside a grazing gate: animal number to permission with its stamp, in memory that the caller lends.
//!
//! ```no_run
//! use boughladder::{items, lane, slots, Lane, Table};
//!
//! let (mut s, mut c, mut i) = ([0; slots(64)], [0; 16], [0; items(200)]);
//! let mut table = Table { slots: &mut s, counters: &mut c, items: &mut i };
//! table.fresh()?;
//! table.set(4711, 1, 100, 110)?; // issued in minute 100, and it is minute 110 now
//! if lane(table.serve(4711, 720, 130)) == Lane::Milking { /* open the milking gate */ }
//! # Ok::<(), boughladder::Refusal>(())
//! ```
//!
//! Every call is safe on slices of any length and contents: it ends, touches nothing outside of them, and says what it
//! found. Calls that write take `&mut self`, serve too, so no other call runs beside them. Two threads share a table in
//! a `Mutex`, or in a `RwLock`: reads, plain reads, finds, lists, judges and plans may run beside each other.
//!
//! A set takes two minutes, issued before now. `issued` is when the office gave the permission, as the list says; it
//! becomes the stamp. `now` is the gate's clock. Swapped, they are [`Refusal::BadTime`] where issued is earlier than
//! now; where it is later, now becomes the stamp, which is wrong. A list that was issued before what is held is
//! [`Refusal::Late`], and nothing else stops a late list: after a delete or an eviction it is stored. What came with
//! minutes that ran ahead makes every true list late until the animal is deleted.
//!
//! A set in steps, with any calls between: [`Table::plan`] says what a set of an absent animal would do now,
//! [`Table::step_move`] makes one of its moves after the other, and [`Table::step_enter`] the final store. Without
//! calls between they leave what the set leaves, word for word. Nothing is reserved, and nothing ties a step to its
//! plan: each is judged by the words that it finds. Where it can't be made any more it is [`Refusal::NotAsPlanned`],
//! and no word changes: plan again, or set. An update has no steps: it is a set.
//!
//! ```no_run
//! # use boughladder::{Refusal, Table};
//! # fn in_steps(table: &mut Table) -> Result<(), Refusal> {
//! let plan = table.plan(4711, 1, 100, 110)?;
//! for planned in plan.moves() {
//!     table.step_move(*planned, 4711, 1, 100, 110)?; // other calls may come before it and after it
//! }
//! table.step_enter(plan.place, plan.slot, 4711, 1, 100, 110)?;
//! # Ok(())
//! # }
//! ```
//!
//! Standing permissions are retired: no set makes one. A table from before 4.0.0 may hold some, stamped
//! [`RETIRED_MARK`]. Such an entry is old with [`LEAST_LEFT`] at every minute and under every limit, so it opens no
//! gate, and serve leaves it alone. No list is late for it: the next set replaces it. The list has it as it is stored.

mod ffi;

use std::fmt;

/// The words of `slots` for n buckets; n is a power of two from 2 to 2,048.
pub const fn slots(n: usize) -> usize {
    4 * n
}

/// The words of `items` for m places; m is from 1 to 4,096. Counters are a word each, from 1 to 1,024.
pub const fn items(m: usize) -> usize {
    4 * m
}

/// The bytes of a whole list of m places.
pub const fn list_bytes(m: usize) -> usize {
    RECORD_BYTES * m
}

/// The bytes of one record of a list.
pub const RECORD_BYTES: usize = 20;
/// The most moves of a set, and so of a plan.
pub const MOST_MOVES: usize = 4;
/// The largest limit in minutes: a week.
pub const LARGEST_LIMIT: u64 = 10080;
/// The least that is told to be left, -2^62 minutes: what would be less is told as this.
pub const LEAST_LEFT: i64 = -(1 << 62);
/// As now: no minute, [`Refusal::BadTime`].
pub const NO_MINUTE: u64 = u64::MAX;
/// As the stamp of an entry: a standing permission from before 4.0.0, which is retired.
pub const RETIRED_MARK: u64 = u64::MAX;
/// As k of a cut form: nothing is cut off.
pub const ALL_STORES: u64 = u64::MAX;
/// Bit 0 of a permission.
pub const MAY_MILK: u32 = 1;
/// Bit 1 of a permission.
pub const MAY_GRAZE: u32 = 2;

/// Why a call refused. A refusal changes no word.
#[derive(Clone, Copy, Debug, PartialEq, Eq)]
pub enum Refusal {
    /// A length of the lent memory is wrong, or the hand is too large.
    BadShape,
    /// The animal number is 0.
    NoAnimal,
    /// The limit is above 10,080 minutes, now is [`NO_MINUTE`], or issued is later than now.
    BadTime,
    /// A damaged word was read, or evict's victim has no slot. Make it fresh and load the list again.
    Damaged,
    /// Set or plan of an absent animal: all places are taken.
    NoPlace,
    /// Set or plan of an absent animal: no free slot within four moves.
    NoRoom,
    /// Delete of an absent animal, or nobody is there to evict.
    Nobody,
    /// A write was cut off by a loss of power. Only fresh helps.
    Busy,
    /// The list needs 20 bytes for each place that is taken.
    ShortBuffer,
    /// The hand found no victim: proved never to come.
    NoVictim,
    /// Set of a held animal: its stamp is later than issued, and not retired. It keeps what it has.
    Late,
    /// Plan of a held animal, or a step that can't be made as it was planned. Plan again, or set.
    NotAsPlanned,
    /// A number that this crate does not know: the archive is of another version.
    Unknown(u32),
}

const REFUSALS: [Refusal; 12] = [
    Refusal::BadShape,
    Refusal::NoAnimal,
    Refusal::BadTime,
    Refusal::Damaged,
    Refusal::NoPlace,
    Refusal::NoRoom,
    Refusal::Nobody,
    Refusal::Busy,
    Refusal::ShortBuffer,
    Refusal::NoVictim,
    Refusal::Late,
    Refusal::NotAsPlanned,
];

impl Refusal {
    /// The refusal of a number, from 1 on.
    pub fn from_number(number: u32) -> Refusal {
        let known = REFUSALS.iter().find(|refusal| refusal.number() == number);
        known.copied().unwrap_or(Refusal::Unknown(number))
    }

    pub fn number(self) -> u32 {
        match self {
            Refusal::BadShape => 1,
            Refusal::NoAnimal => 2,
            Refusal::BadTime => 3,
            Refusal::Damaged => 4,
            Refusal::NoPlace => 5,
            Refusal::NoRoom => 6,
            Refusal::Nobody => 7,
            Refusal::Busy => 8,
            Refusal::ShortBuffer => 9,
            Refusal::NoVictim => 10,
            Refusal::Late => 11,
            Refusal::NotAsPlanned => 12,
            Refusal::Unknown(number) => number,
        }
    }
}

impl fmt::Display for Refusal {
    fn fmt(&self, f: &mut fmt::Formatter<'_>) -> fmt::Result {
        f.write_str(match self {
            Refusal::BadShape => "a length of the lent memory is wrong, or the hand is too large",
            Refusal::NoAnimal => "the animal number is 0",
            Refusal::BadTime => "the limit is too large, now is no minute, or issued is later than now",
            Refusal::Damaged => "a damaged word was read",
            Refusal::NoPlace => "no vacant place for a new animal",
            Refusal::NoRoom => "no room within four moves for a new animal",
            Refusal::Nobody => "the animal to delete is absent, or nobody is there to evict",
            Refusal::Busy => "busy: a write was cut off",
            Refusal::ShortBuffer => "the buffer is too short for the list",
            Refusal::NoVictim => "the hand found no victim",
            Refusal::Late => "late: a permission that was issued later is held",
            Refusal::NotAsPlanned => "the animal to plan for is held, or a step can't be made as planned",
            Refusal::Unknown(_) => "no refusal number",
        })
    }
}

impl std::error::Error for Refusal {}

/// What read, serve and plain read say. Fresh alone opens nothing: see [`lane`].
/// `left` is the minutes of the limit that are left, [`LEAST_LEFT`] at the least.
#[derive(Clone, Copy, Debug, PartialEq, Eq)]
pub enum Reading {
    /// The animal is not held.
    Absent,
    /// A permission within the limit: 0 is left in the last good minute.
    Fresh { permission: u32, left: i64 },
    /// A permission beyond the limit, which is not told: `left` is below 0, and `-left` are the minutes overdue. Or one
    /// that is retired: `left` is [`LEAST_LEFT`].
    Old { left: i64 },
    /// The stamp is later than now.
    Ahead,
}

/// Where an animal goes.
#[derive(Clone, Copy, Debug, PartialEq, Eq)]
pub enum Lane {
    Holding,
    Milking,
    Grazing,
}

/// The lane by an answer of read or serve: of a fresh permission bit 0 means milking, else bit 1 grazing, else holding.
/// Every other answer and every refusal means holding. Not by an answer of plain read, which tells of no damage.
pub fn lane(reading: Result<Reading, Refusal>) -> Lane {
    match reading {
        Ok(Reading::Fresh { permission, .. }) if permission & MAY_MILK != 0 => Lane::Milking,
        Ok(Reading::Fresh { permission, .. }) if permission & MAY_GRAZE != 0 => Lane::Grazing,
        _ => Lane::Holding,
    }
}

/// What set says when it stored.
#[derive(Clone, Copy, Debug, PartialEq, Eq)]
pub struct Stored {
    /// Buckets looked at for room, at most 682; 0 where the animal was held already.
    pub visits: usize,
    /// Entries moved to make room, at most 4.
    pub moves: usize,
}

/// One move of a plan.
#[derive(Clone, Copy, Debug, PartialEq, Eq)]
pub struct Move {
    /// The slot that it empties.
    pub from: usize,
    /// The tag of the entry there.
    pub tag: u32,
    /// The slot that the entry goes to.
    pub to: usize,
}

/// What plan says: what a set would do now. Later it may not be possible any more, nor the least that is needed.
#[derive(Clone, Copy, Debug, PartialEq, Eq)]
pub struct Plan {
    /// The place for the final store.
    pub place: usize,
    /// Its slot: free now, or freed by the last move.
    pub slot: usize,
    count: usize,
    moves: [Move; MOST_MOVES],
}

impl Plan {
    /// The moves in the order of making, at most 4.
    pub fn moves(&self) -> &[Move] {
        &self.moves[..self.count]
    }
}

/// What evict says when it took an animal away.
#[derive(Clone, Copy, Debug, PartialEq, Eq)]
pub struct Evicted {
    /// The animal that went.
    pub victim: u64,
    /// Places looked at.
    pub looked: usize,
    /// To pass to the next evict. On a refusal the hand stays as it was.
    pub hand: usize,
}

/// What [`judge`] found broken: the first condition in this order. `at` is what the last words say.
#[derive(Clone, Copy, Debug, PartialEq, Eq)]
pub enum Condition {
    /// A run has a wrong length; the run: 0 slots, 1 counters, 2 items.
    WrongLength,
    /// A slot word that no call writes; the slot.
    DamagedWord,
    /// A write was cut off; the counter.
    OddCounter,
    /// The place that a slot points to holds no animal, or one with another tag or in other buckets; the slot.
    StraySlot,
    /// No slot points to a place that is taken, or several do; the place.
    NotOneSlot,
    /// Another place holds the same animal; the place.
    Twin,
    /// A permission above 32 bits, where taken or vacant; the place.
    WidePermission,
    /// A vacant place whose other words are not all 0; the place.
    VacantNotZero,
    /// A number that this crate does not know: the archive is of another version.
    Unknown(u32),
}

const CONDITIONS: [Condition; 8] = [
    Condition::WrongLength,
    Condition::DamagedWord,
    Condition::OddCounter,
    Condition::StraySlot,
    Condition::NotOneSlot,
    Condition::Twin,
    Condition::WidePermission,
    Condition::VacantNotZero,
];

impl Condition {
    /// The condition of a number, from 1 on.
    pub fn from_number(number: u32) -> Condition {
        let known = CONDITIONS.iter().find(|condition| condition.number() == number);
        known.copied().unwrap_or(Condition::Unknown(number))
    }

    pub fn number(self) -> u32 {
        match self {
            Condition::WrongLength => 1,
            Condition::DamagedWord => 2,
            Condition::OddCounter => 3,
            Condition::StraySlot => 4,
            Condition::NotOneSlot => 5,
            Condition::Twin => 6,
            Condition::WidePermission => 7,
            Condition::VacantNotZero => 8,
            Condition::Unknown(number) => number,
        }
    }
}

impl fmt::Display for Condition {
    fn fmt(&self, f: &mut fmt::Formatter<'_>) -> fmt::Result {
        f.write_str(match self {
            Condition::WrongLength => "a run has a wrong length",
            Condition::DamagedWord => "a slot word is damaged",
            Condition::OddCounter => "a counter is odd",
            Condition::StraySlot => "a slot does not point to an animal that belongs there",
            Condition::NotOneSlot => "not exactly one slot points to a place that is taken",
            Condition::Twin => "two places hold the same animal",
            Condition::WidePermission => "a permission does not fit 32 bits",
            Condition::VacantNotZero => "a vacant place is not all zero",
            Condition::Unknown(_) => "no condition number",
        })
    }
}

/// What [`judge`] says.
#[must_use]
#[derive(Clone, Copy, Debug, PartialEq, Eq)]
pub enum Judgement {
    /// A yes: no condition is broken.
    Sound,
    /// The first condition that is broken, and the lowest run, slot, counter or place that breaks it.
    Broken { condition: Condition, at: usize },
}

impl fmt::Display for Judgement {
    fn fmt(&self, f: &mut fmt::Formatter<'_>) -> fmt::Result {
        match self {
            Judgement::Sound => f.write_str("sound"),
            Judgement::Broken { condition, at } => {
                write!(f, "condition {} at {}: {}", condition.number(), at, condition)
            }
        }
    }
}

/// One record of a list.
#[derive(Clone, Copy, Debug, PartialEq, Eq)]
pub struct Record {
    pub animal: u64,
    pub permission: u32,
    /// A minute, or [`RETIRED_MARK`].
    pub stamp: u64,
}

/// The records of a list, in the order of their places.
#[derive(Clone, Debug)]
pub struct Records<'b> {
    bytes: &'b [u8],
}

impl<'b> Records<'b> {
    /// The records in the bytes of a list; what is left over at the end is no record.
    pub fn of(bytes: &'b [u8]) -> Records<'b> {
        Records { bytes: &bytes[..bytes.len() / RECORD_BYTES * RECORD_BYTES] }
    }

    /// The bytes themselves, low byte first: animal 8, permission 4, stamp 8.
    pub fn bytes(&self) -> &'b [u8] {
        self.bytes
    }
}

impl Iterator for Records<'_> {
    type Item = Record;

    fn next(&mut self) -> Option<Record> {
        if self.bytes.is_empty() {
            return None;
        }
        let (record, rest) = self.bytes.split_at(RECORD_BYTES);
        self.bytes = rest;
        let number = |bytes: &[u8]| bytes.iter().rev().fold(0, |number, byte| number << 8 | u64::from(*byte));
        Some(Record {
            animal: number(&record[..8]),
            permission: number(&record[8..12]) as u32,
            stamp: number(&record[12..]),
        })
    }

    fn size_hint(&self) -> (usize, Option<usize>) {
        (self.bytes.len() / RECORD_BYTES, Some(self.bytes.len() / RECORD_BYTES))
    }
}

impl ExactSizeIterator for Records<'_> {}

/// The lent memory. The fields are named where a table is made, so that slots and counters are not swapped unseen.
/// Make it fresh before any other call, unless it holds a table already.
#[derive(Debug)]
pub struct Table<'a> {
    pub slots: &'a mut [u32],
    pub counters: &'a mut [u32],
    pub items: &'a mut [u64],
}

// Sound: the library reads and writes within the slices that it is lent, whatever they hold.
macro_rules! reads {
    ($t:ident, $call:ident $(, $number:expr)*) => {
        unsafe {
            ffi::$call($t.slots.as_ptr(), $t.slots.len(), $t.counters.as_ptr(), $t.counters.len(), $t.items.as_ptr(),
                $t.items.len() $(, $number)*)
        }
    };
}
macro_rules! writes {
    ($t:ident, $call:ident $(, $number:expr)*) => {
        unsafe {
            ffi::$call($t.slots.as_mut_ptr(), $t.slots.len(), $t.counters.as_mut_ptr(), $t.counters.len(),
                $t.items.as_mut_ptr(), $t.items.len() $(, $number)*)
        }
    };
}

fn done<T>(refusal: u32, value: T) -> Result<T, Refusal> {
    if refusal == 0 {
        Ok(value)
    } else {
        Err(Refusal::from_number(refusal))
    }
}

fn told(r: ffi::Reading) -> Result<Reading, Refusal> {
    let reading = match r.kind {
        1 => Reading::Fresh { permission: r.permission, left: r.left },
        2 => Reading::Old { left: r.left },
        3 => Reading::Ahead,
        _ => Reading::Absent,
    };
    done(r.refusal.into(), reading)
}

fn stored(r: ffi::Setting) -> Result<Stored, Refusal> {
    done(r.refusal, Stored { visits: r.visits, moves: r.moves })
}

fn planned(r: ffi::Plan) -> Result<Plan, Refusal> {
    let moves = r.moves.map(|one| Move { from: one.from, tag: one.tag, to: one.to });
    done(r.refusal, Plan { place: r.place, slot: r.slot, count: r.count, moves })
}

fn evicted(r: ffi::Evicting) -> Result<Evicted, Refusal> {
    done(r.refusal, Evicted { victim: r.victim, looked: r.looked, hand: r.hand })
}

/// Read without hashing, for an auditor, who may have the item words alone. It walks the places in order, takes the
/// first with that number, and judges it as read does, its permission word modulo 2^32. It is slower: it may walk all
/// places.
///
/// On a table that finished calls have made from fresh on, it answers as [`Table::read`] does, for every number, limit
/// and minute. So where the two differ, a call was cut off, something else wrote, or other lengths were lent.
/// It answers there too, even where read is busy or damaged, and that answer opens no gate.
///
/// It refuses with [`Refusal::BadShape`] for the length of the items, [`Refusal::NoAnimal`] and [`Refusal::BadTime`].
pub fn plain_read(items: &[u64], animal: u64, limit: u64, now: u64) -> Result<Reading, Refusal> {
    // Sound as above.
    told(unsafe { ffi::boughladder_plain_read(items.as_ptr(), items.len(), animal, limit, now) })
}

/// Judges memory that others have built or that a cabinet brings: a yes where no condition is broken, else the first
/// that is, and where. What finished calls leave, from fresh on, gets a yes. After a yes, whoever built the table, it
/// answers from then on as the order demands. It refuses nothing and changes nothing.
///
/// Slots and counters have one type: swapped, they may get a yes. [`Table::judge`] takes them by name.
pub fn judge(slots: &[u32], counters: &[u32], items: &[u64]) -> Judgement {
    // Sound as above.
    let r = unsafe {
        ffi::boughladder_judge(
            slots.as_ptr(),
            slots.len(),
            counters.as_ptr(),
            counters.len(),
            items.as_ptr(),
            items.len(),
        )
    };
    match r.condition {
        0 => Judgement::Sound,
        number => Judgement::Broken { condition: Condition::from_number(number), at: r.at },
    }
}

impl Table<'_> {
    /// Makes a table of the memory: 0 in every word. The only call that helps a busy counter.
    pub fn fresh(&mut self) -> Result<(), Refusal> {
        done(writes!(self, boughladder_fresh), ())
    }

    /// Says whether the animal's permission is fresh: held, not ahead of now and at most limit minutes old.
    pub fn read(&self, animal: u64, limit: u64, now: u64) -> Result<Reading, Refusal> {
        told(reads!(self, boughladder_read, animal, limit, now))
    }

    /// Read, for a gate that then opens: a fresh answer also marks that the animal was here lately.
    pub fn serve(&mut self, animal: u64, limit: u64, now: u64) -> Result<Reading, Refusal> {
        told(writes!(self, boughladder_serve, animal, limit, now))
    }

    /// The place at which the animal is held, whatever its age: its words are `items[4 * place..4 * place + 4]`.
    pub fn find(&self, animal: u64) -> Result<Option<usize>, Refusal> {
        let r = reads!(self, boughladder_find, animal);
        done(r.refusal, if r.kind == 0 { None } else { Some(r.place) })
    }

    /// Stores a permission with the stamp issued, over the one that is held unless that has a later stamp and is not
    /// retired.
    pub fn set(&mut self, animal: u64, permission: u32, issued: u64, now: u64) -> Result<Stored, Refusal> {
        stored(writes!(self, boughladder_set, animal, permission, issued, now))
    }

    /// Set, of which only the first k stores are made, as a loss of power leaves it.
    pub fn set_cut(&mut self, animal: u64, permission: u32, issued: u64, now: u64, k: u64) -> Result<Stored, Refusal> {
        stored(writes!(self, boughladder_set_cut, animal, permission, issued, now, k))
    }

    /// Says what a set of an absent animal would do now, and changes nothing: its moves, its place, its slot. Of a held
    /// animal it is [`Refusal::NotAsPlanned`], never [`Refusal::Late`]; all other refusals are set's.
    pub fn plan(&self, animal: u64, permission: u32, issued: u64, now: u64) -> Result<Plan, Refusal> {
        planned(reads!(self, boughladder_plan, animal, permission, issued, now))
    }

    /// One whole move of a plan, in 4 stores. It is made exactly if both slots lie in the run, the source word is
    /// neither free nor damaged and has the planned tag, the destination word is 0, and the destination lies in the
    /// entry's other bucket; also where the animal is held by now. Else it is [`Refusal::NotAsPlanned`]. On a table
    /// that finished calls have made no read changes by it.
    ///
    /// The animal and what follows are set's. So are the refusals that come first, in this order:
    /// [`Refusal::BadShape`], [`Refusal::NoAnimal`], [`Refusal::BadTime`], [`Refusal::Busy`], [`Refusal::Damaged`].
    pub fn step_move(
        &mut self,
        planned: Move,
        animal: u64,
        permission: u32,
        issued: u64,
        now: u64,
    ) -> Result<(), Refusal> {
        let planned = ffi::Move { from: planned.from, tag: planned.tag, to: planned.to };
        done(writes!(self, boughladder_step_move, planned, animal, permission, issued, now), ())
    }

    /// The final store, in 7 stores: the animal into that place and slot, with the stamp issued. It is made exactly if
    /// the animal is absent, place and slot lie in their runs, the place is vacant, the slot is free and lies in one of
    /// the animal's two buckets. Else it is [`Refusal::NotAsPlanned`]. On a table that finished calls have made only
    /// her own read changes by it.
    ///
    /// The refusals that come first are those of [`Table::step_move`].
    pub fn step_enter(
        &mut self,
        place: usize,
        slot: usize,
        animal: u64,
        permission: u32,
        issued: u64,
        now: u64,
    ) -> Result<(), Refusal> {
        done(writes!(self, boughladder_step_enter, place, slot, animal, permission, issued, now), ())
    }

    /// Takes the animal's entry away.
    pub fn delete(&mut self, animal: u64) -> Result<(), Refusal> {
        done(writes!(self, boughladder_delete, animal), ())
    }

    /// Delete, of which only the first k stores are made.
    pub fn delete_cut(&mut self, animal: u64, k: u64) -> Result<(), Refusal> {
        done(writes!(self, boughladder_delete_cut, animal, k), ())
    }

    /// Takes the first animal from the hand on that was not here lately. The hand is 0 after fresh, then the reply's.
    pub fn evict(&mut self, hand: usize) -> Result<Evicted, Refusal> {
        evicted(writes!(self, boughladder_evict, hand))
    }

    /// Evict, of which only the first k stores are made.
    pub fn evict_cut(&mut self, hand: usize, k: u64) -> Result<Evicted, Refusal> {
        evicted(writes!(self, boughladder_evict_cut, hand, k))
    }

    /// Writes the places that are taken to the buffer, 20 bytes each, and hands the records back.
    pub fn list<'b>(&self, buffer: &'b mut [u8]) -> Result<Records<'b>, Refusal> {
        let r = reads!(self, boughladder_list, buffer.as_mut_ptr(), buffer.len());
        done(r.refusal, ())?;
        Ok(Records::of(&buffer[..list_bytes(r.count)]))
    }

    /// [`plain_read`] of the items: as read, where finished calls have made the table from fresh on. It looks at no
    /// slots and counters, and what it answers on a damaged table opens no gate.
    pub fn plain_read(&self, animal: u64, limit: u64, now: u64) -> Result<Reading, Refusal> {
        plain_read(self.items, animal, limit, now)
    }

    /// [`judge`] of the three runs: a yes, or the first condition that is broken, and where.
    pub fn judge(&self) -> Judgement {
        judge(self.slots, self.counters, self.items)
    }
}
