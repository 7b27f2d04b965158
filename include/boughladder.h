/*
 * boughladder.h: the table inside a grazing gate, for C99 and C++11 on.
 * Link with libboughladder.a, which is for x86-64 Linux and needs memset and memcpy and nothing else.
 *
 *     static uint32_t slots[BOUGHLADDER_SLOTS(64)], counters[64];
 *     static uint64_t items[BOUGHLADDER_ITEMS(200)];
 *     BoughladderTable table = BOUGHLADDER_TABLE(slots, counters, items);
 *
 *     refusal = boughladder_table_fresh(&table);
 *     stored = boughladder_table_set(&table, 4711, 1, issued, now);
 *     reading = boughladder_table_serve(&table, 4711, 720, now);
 *     if (boughladder_lane(reading) == BOUGHLADDER_MILKING) open_milking_gate();
 *
 * A table is three runs of memory that the caller lends to every call, each as a pointer and its length in words:
 *
 *     slots     uint32_t   4N words, N a power of two from 2 to 2048 (the number of buckets)
 *     counters  uint32_t   V words, V from 1 to 1024
 *     items     uint64_t   4M words, M from 1 to 4096 (the number of places)
 *
 * The runs are aligned for their type and don't overlap. The library keeps nothing between calls. Any length and any
 * contents are safe: a call ends, touches nothing outside the runs, and says what it found. A wrong length is refusal 1.
 * A length of 0 is a wrong length too, and its pointer may be NULL. A list's buffer may be NULL with length 0.
 *
 * What opens a gate. "Fresh" alone opens nothing: a fresh permission 0 means hold. Of a fresh permission, bit 0 means
 * milking, else bit 1 grazing, else holding. Every other answer and every refusal means holding. boughladder_lane says
 * all of this.
 *
 * One call at a time. No call, not even read, plain read, find, list, judge or plan, may run while a writing call runs
 * on the same table. Fresh, set, delete, evict, their cut forms and the two steps write, and so does serve. Put one
 * mutex around every call, as examples/c/antenna.c does; examples/c/torn.c shows the wrong answers that come without
 * it. Reads, plain reads, finds, lists, judges and plans beside each other are fine. Refusal 8 (busy) is no lock: it
 * tells of a write that was cut off, not of one under way.
 *
 * The cut forms make only the first k stores of their call and answer as the whole call does: they show what a loss of
 * power leaves. A counter left odd by a cut makes its animals busy (refusal 8), and they stay busy until fresh.
 *
 * Minutes are counted by the caller. UINT64_MAX is no minute. Count from long ago, so that now is above 10080: then a
 * limit and a now that are swapped are refusal 3.
 *
 * The two minutes of a set. issued is the minute in which the office gave the permission, by the gate's count; the list
 * brings it, and a relay on the way leaves it alone. It becomes the stamp, so age runs from issue and not from arrival.
 * now is the gate's clock, and an issued later than now is refusal 3. Swapped, they are refusal 3 too where issued is
 * earlier than now; where it is later, now becomes the stamp, which is wrong. No numbers crash.
 *
 * A late list, issued before what is held, is refusal 11: she keeps the later permission. That compares with what is
 * held and with nothing else:
 *   - after a delete, an eviction or fresh a late list is stored, and is fresh if its issue minute is within the limit;
 *   - what came with minutes that ran ahead locks its animal: it reads as ahead, and every true list is late, until the
 *     clock is there; then the old permission is fresh once more. Delete her, then set her again.
 *
 * A set in steps, with any calls between. plan says what a set of an absent animal would do now: up to four moves in
 * the order of making, its place and the final slot. It changes nothing. Then boughladder_step_move makes one whole
 * move after the other, and boughladder_step_enter the final store; without calls between they leave what the set
 * leaves, word for word. Nothing is reserved, and nothing ties a step to its plan: each is judged by the words that it
 * finds, and is made exactly if
 *   - a move: both slots lie in the run, the source word is neither free nor damaged and has the planned tag, the
 *     destination word is 0, and the destination lies in the entry's other bucket;
 *   - the final store: the animal is absent, place and slot lie in their runs, the place is vacant, the slot is free
 *     and lies in one of the animal's two buckets.
 * Else it is refusal 12 and no word changes: plan again, or set. On a table by finished calls no read changes by a
 * move, and by the final store only the animal's own. Each step takes set's inputs, and 1, 2, 3, 8 and 4 come first, as
 * in set of that animal; a move takes them for nothing else, and does not ask whether the entry that it moves is busy.
 * A held animal can't be planned (12): an update has no steps, it is a set.
 *
 * Standing permissions are retired: no set makes one. A table from before 4.0.0 may hold some, with UINT64_MAX as their
 * stamp. Such an entry is old at every minute and under every limit, overdue by as much as is ever told, so it opens no
 * gate; serve leaves its recent word alone. No list is late for it: the next set of its animal that is not refused
 * replaces it. The list writes it as it is stored, and judge takes it for sound.
 *
 * No call takes memory but the three runs and the stack: about 3.2 KB for set and plan, at most 0.4 KB for any other,
 * as examples/c/stack.c measures it.
 * size_t is 64 bits wide in the archive. On a 32-bit target finding, setting, evicting and listing would be smaller,
 * and there is no archive for one.
 *
 * These declarations are tried by examples/c/check and ./check; the calls themselves are proved.
 */
#ifndef BOUGHLADDER_H
#define BOUGHLADDER_H

#include <stddef.h>
#include <stdint.h>

/* This header's version, as text and as numbers. The archive has none to ask for: ship both from one release.
   A caller of 3.x that sets over the runs does not compile: set and its cut form lose the argument standing. One over a
   table compiles unless it sets standing permissions: those two calls are gone, and so is BOUGHLADDER_STANDING.
   A caller of 2.x that reads the age does not compile either: left is the limit minus the age. Don't only rename it:
   left <= limit is true of absent, ahead and refused, and with a signed limit of old as well. Test kind, or ask
   boughladder_lane.
   A caller of 1.0.0 over a table does not compile: each set takes one minute more. One over the runs does: its minute
   and its standing, 0 or 1, are taken for issued and now. That is refusal 3, but for minutes 0 and 1.
   Compile and link everything again. What is mixed does link (only plan and the steps are missing before 4.1.0, judge
   before 3.1.0, plain read before 2.1.0):
     - what was compiled with 2.0.0 to 3.1.0 sets every permission with its minute of issue, those it means to be
       standing too. Its cut form of set takes standing for k: where that is 0 it answers as ever and makes no store;
     - this header with an archive of 2.0.0 to 3.1.0 passes no standing: what lies on the stack is taken for it, and
       permissions may be fresh for ever. In the cut form k is taken for standing, and what lies on the stack for k;
     - what was compiled with 2.x also takes what is left for the age: in its last good minute a permission looks new;
     - this header with an archive of 2.x also takes the age for what is left: an old permission has minutes left;
     - what was compiled with 1.0.0 has its minute taken for issued and its standing for now: refusal 3, as above;
     - this header with the archive of 1.0.0 has issued taken for now, and now for standing: every permission is then
       fresh for ever.
   Refusal, kind, permission and lane of a reading are right in the first and the third. */
#define BOUGHLADDER_VERSION "4.1.0"
#define BOUGHLADDER_VERSION_MAJOR 4
#define BOUGHLADDER_VERSION_MINOR 1
#define BOUGHLADDER_VERSION_PATCH 0

/* Sizes: words of slots for n buckets, words of items for m places, bytes of a whole list of m places. V counters are
   V words. */
#define BOUGHLADDER_SLOTS(n) ((size_t)4 * (n))
#define BOUGHLADDER_ITEMS(m) ((size_t)4 * (m))
#define BOUGHLADDER_RECORD_BYTES 20
#define BOUGHLADDER_LIST_BYTES(m) ((size_t)BOUGHLADDER_RECORD_BYTES * (m))

/* Limits. */
#define BOUGHLADDER_LEAST_N 2
#define BOUGHLADDER_MOST_N 2048
#define BOUGHLADDER_LEAST_V 1
#define BOUGHLADDER_MOST_V 1024
#define BOUGHLADDER_LEAST_M 1
#define BOUGHLADDER_MOST_M 4096
#define BOUGHLADDER_MOST_MOVES 4 /* of a set, and so of a plan */
#define BOUGHLADDER_LARGEST_LIMIT 10080 /* minutes: a week */
#define BOUGHLADDER_LEAST_LEFT (-INT64_C(4611686018427387904)) /* -2^62 minutes; what would be less is told as this */

/* Three meanings of one number. */
#define BOUGHLADDER_NO_MINUTE UINT64_MAX    /* as now: refusal 3 */
#define BOUGHLADDER_RETIRED_MARK UINT64_MAX /* as the stamp of an entry: a standing permission from before 4.0.0 */
#define BOUGHLADDER_ALL_STORES UINT64_MAX   /* as k of a cut form: nothing is cut off */

/* Permission bits. The other bits are the caller's. */
#define BOUGHLADDER_MAY_MILK 1u
#define BOUGHLADDER_MAY_GRAZE 2u

/* Whether fresh takes a table of n buckets, v counters and m places. Its arguments are evaluated more than once. */
#define BOUGHLADDER_GOOD_SHAPE(n, v, m)                                                            \
    ((n) >= BOUGHLADDER_LEAST_N && (n) <= BOUGHLADDER_MOST_N && ((n) & ((n)-1)) == 0 &&            \
     (v) >= BOUGHLADDER_LEAST_V && (v) <= BOUGHLADDER_MOST_V && (m) >= BOUGHLADDER_LEAST_M &&      \
     (m) <= BOUGHLADDER_MOST_M)

/* The same when it is compiled, in a file or a function: BOUGHLADDER_CHECK_SHAPE(64, 16, 200); */
#if defined __cplusplus
#define BOUGHLADDER_CHECK_SHAPE(n, v, m) static_assert(BOUGHLADDER_GOOD_SHAPE(n, v, m), "no shape of a table")
#elif defined __STDC_VERSION__ && __STDC_VERSION__ >= 201112L
#define BOUGHLADDER_CHECK_SHAPE(n, v, m) _Static_assert(BOUGHLADDER_GOOD_SHAPE(n, v, m), "no shape of a table")
#else
#define BOUGHLADDER_CHECK_SHAPE(n, v, m) \
    void boughladder_shape_(char (*no_shape_of_a_table)[BOUGHLADDER_GOOD_SHAPE(n, v, m) ? 1 : -1])
#endif

/* A reply that is not looked at is a warning: a refusal would go unseen. -DBOUGHLADDER_MUST_USE= turns it off. */
#ifndef BOUGHLADDER_MUST_USE
#if defined __cplusplus && __cplusplus >= 201703L
#define BOUGHLADDER_MUST_USE [[nodiscard]]
#elif !defined __cplusplus && defined __STDC_VERSION__ && __STDC_VERSION__ > 201710L
#define BOUGHLADDER_MUST_USE [[nodiscard]]
#elif defined __GNUC__
#define BOUGHLADDER_MUST_USE __attribute__((__warn_unused_result__))
#else
#define BOUGHLADDER_MUST_USE
#endif
#endif

#ifdef __cplusplus
extern "C" {
#endif

/* Why a call refused. A refusal changes no word, and every other field of its reply is 0, except evict's hand. */
enum BoughladderRefusal {
    BOUGHLADDER_OK = 0,            /* not refused */
    BOUGHLADDER_BAD_SHAPE = 1,     /* a length is not as above, or the hand is M or more */
    BOUGHLADDER_NO_ANIMAL = 2,     /* the animal number is 0 */
    BOUGHLADDER_BAD_TIME = 3,      /* the limit is above 10080, now is no minute, or issued is later than now */
    BOUGHLADDER_DAMAGED = 4,       /* a word that no call writes was read, or evict's victim has no slot */
    BOUGHLADDER_NO_PLACE = 5,      /* set or plan of an absent animal: all M places are taken */
    BOUGHLADDER_NO_ROOM = 6,       /* set or plan of an absent animal: no free slot within four moves */
    BOUGHLADDER_NOBODY = 7,        /* delete of an absent animal, or evict where no place is taken */
    BOUGHLADDER_BUSY = 8,          /* the animal's counter is odd: a write was cut off */
    BOUGHLADDER_SHORT_BUFFER = 9,  /* the list needs 20 bytes for each place that is taken */
    BOUGHLADDER_NO_VICTIM = 10,    /* the hand found no victim: proved never to happen */
    BOUGHLADDER_LATE = 11,         /* set of a held animal: its stamp is later than issued, and not retired */
    BOUGHLADDER_NOT_AS_PLANNED = 12 /* plan of a held animal, or a step that can't be made as it was planned */
};

/* What a call that was not refused found. */
enum BoughladderKind {
    BOUGHLADDER_ABSENT = 0,   /* the animal is not held */
    BOUGHLADDER_FRESH = 1,    /* a permission within the limit */
    BOUGHLADDER_OLD = 2,      /* beyond the limit, or retired: how long it is overdue is told, and no permission */
    BOUGHLADDER_AHEAD = 3,    /* a stamp later than now */
    BOUGHLADDER_AT_PLACE = 9  /* find: the animal is held at a place */
};

/* What judge found: the first condition that is broken, in this order, and what at then is. */
enum BoughladderCondition {
    BOUGHLADDER_SOUND = 0,             /* none is broken: a yes */
    BOUGHLADDER_WRONG_LENGTH = 1,      /* a length is not as above; the run: 0 slots, 1 counters, 2 items */
    BOUGHLADDER_DAMAGED_WORD = 2,      /* a word that no call writes; its slot */
    BOUGHLADDER_ODD_COUNTER = 3,       /* a write was cut off, or something else wrote there; the counter */
    BOUGHLADDER_STRAY_SLOT = 4,        /* its place holds no animal, or one of another tag or other buckets; the slot */
    BOUGHLADDER_NOT_ONE_SLOT = 5,      /* no slot points to a place that is taken, or several do; the place */
    BOUGHLADDER_TWIN = 6,              /* another place holds the same animal; the place */
    BOUGHLADDER_WIDE_PERMISSION = 7,   /* a permission above 32 bits, where taken or vacant; the place */
    BOUGHLADDER_VACANT_NOT_ZERO = 8    /* a vacant place whose other words are not all 0; the place */
};

/* Where an animal goes. */
enum BoughladderLane { BOUGHLADDER_HOLDING = 0, BOUGHLADDER_MILKING = 1, BOUGHLADDER_GRAZING = 2 };

/* Read, serve and plain read, in 16 bytes: two registers.
   Where fresh, left is 0 or more: 0 in the last good minute. Where old, it is below 0, BOUGHLADDER_LEAST_LEFT at the
   least, so that -left, the minutes overdue up to 2^62, never overflows. Ahead, absent and refused have 0, which tells
   nothing. Look at kind first: left >= 0 alone takes an absent animal for fresh. boughladder_lane is the safe way. */
typedef struct BoughladderReading {
    uint16_t refusal;
    uint16_t kind;        /* absent, fresh, old or ahead */
    uint32_t permission;  /* where fresh */
    int64_t left;         /* minutes of the limit that are left; where fresh or old */
} BoughladderReading;

/* Find. */
typedef struct BoughladderFinding {
    uint32_t refusal;
    uint32_t kind;  /* absent or at a place */
    size_t place;   /* its item words are items[4 * place] to items[4 * place + 3] */
} BoughladderFinding;

/* Set. */
typedef struct BoughladderSetting {
    uint32_t refusal;
    size_t visits;  /* buckets looked at for room, at most 682; 0 where the animal was held already */
    size_t moves;   /* entries moved to make room, at most 4 */
} BoughladderSetting;

/* One move of a plan. */
typedef struct BoughladderMove {
    size_t from;   /* the slot that it empties */
    uint32_t tag;  /* the tag of the entry there */
    size_t to;     /* the slot that the entry goes to */
} BoughladderMove;

/* Plan. */
typedef struct BoughladderPlan {
    uint32_t refusal;
    size_t count;  /* moves, at most 4 */
    size_t place;  /* for the final store */
    size_t slot;
    BoughladderMove moves[BOUGHLADDER_MOST_MOVES];  /* in the order of making; 0 behind the first count */
} BoughladderPlan;

/* Evict. */
typedef struct BoughladderEvicting {
    uint32_t refusal;
    uint64_t victim;  /* the number of the animal that went */
    size_t looked;    /* places looked at */
    size_t hand;      /* to pass to the next evict; on a refusal, the hand that was passed */
} BoughladderEvicting;

/* List. */
typedef struct BoughladderListing {
    uint32_t refusal;
    size_t count;  /* records written, 20 bytes each */
} BoughladderListing;

/* Judge, which refuses nothing. */
typedef struct BoughladderJudgement {
    uint32_t condition;  /* 0: a yes; else the first condition that is broken, 1 to 8 */
    size_t at;           /* the lowest run, slot, counter or place that breaks it; 0 of a yes */
} BoughladderJudgement;

/* One record of a list. */
typedef struct BoughladderRecord {
    uint64_t animal;
    uint32_t permission;
    uint64_t stamp;  /* a minute, or BOUGHLADDER_RETIRED_MARK */
} BoughladderRecord;

/*
 * The calls over the runs: six arguments lend the table, and two lend plain read its items. The calls over a
 * BoughladderTable below do the same with one.
 */

/* Makes a table of the three runs: 0 in every word. The reply is the refusal number, 0 or 1.
   It is the first call on any memory but one that judge says yes to, and the only one that helps a busy counter. */
BOUGHLADDER_MUST_USE
uint32_t boughladder_fresh(uint32_t *slots, size_t slots_length, uint32_t *counters, size_t counters_length,
                           uint64_t *items, size_t items_length);

/* Says whether the animal's permission is fresh: held, not ahead of now, and at most limit minutes old.
   Refusals 1, 2, 3, 8, 4, in this order. */
BOUGHLADDER_MUST_USE
BoughladderReading boughladder_read(const uint32_t *slots, size_t slots_length, const uint32_t *counters,
                                    size_t counters_length, const uint64_t *items, size_t items_length,
                                    uint64_t animal, uint64_t limit, uint64_t now);

/* Read, for a gate that then opens: where the answer is fresh it also stores 1 in the place's recent word.
   Refusals as read. */
BOUGHLADDER_MUST_USE
BoughladderReading boughladder_serve(const uint32_t *slots, size_t slots_length, const uint32_t *counters,
                                     size_t counters_length, uint64_t *items, size_t items_length, uint64_t animal,
                                     uint64_t limit, uint64_t now);

/* Says at which place the animal is held, whatever its age.
   Refusals 1, 2, 8, 4. */
BOUGHLADDER_MUST_USE
BoughladderFinding boughladder_find(const uint32_t *slots, size_t slots_length, const uint32_t *counters,
                                    size_t counters_length, const uint64_t *items, size_t items_length,
                                    uint64_t animal);

/* Stores a permission with the stamp issued, over the one that is held. A stamp equal to the held one is stored.
   Refusals 1, 2, 3, 8, 4, in this order; then 11 for an animal that is held, or 5, 4 and 6 for one that is not. */
BOUGHLADDER_MUST_USE
BoughladderSetting boughladder_set(uint32_t *slots, size_t slots_length, uint32_t *counters, size_t counters_length,
                                   uint64_t *items, size_t items_length, uint64_t animal, uint32_t permission,
                                   uint64_t issued, uint64_t now);

/* Set, of which only the first k stores are made: a new entry takes 7 stores and 4 more for each move, an update 5.
   Reply and refusals as set, for every k. */
BOUGHLADDER_MUST_USE
BoughladderSetting boughladder_set_cut(uint32_t *slots, size_t slots_length, uint32_t *counters,
                                       size_t counters_length, uint64_t *items, size_t items_length, uint64_t animal,
                                       uint32_t permission, uint64_t issued, uint64_t now, uint64_t k);

/* Says what a set of an absent animal would do now, and changes nothing: its moves, its place, its slot.
   Refusals 1, 2, 3, 8, 4, in this order; then 12 for an animal that is held, or 5, 4 and 6 for one that is not. Never
   11, and no visits are told. */
BOUGHLADDER_MUST_USE
BoughladderPlan boughladder_plan(const uint32_t *slots, size_t slots_length, const uint32_t *counters,
                                 size_t counters_length, const uint64_t *items, size_t items_length, uint64_t animal,
                                 uint32_t permission, uint64_t issued, uint64_t now);

/* One whole move of a plan, in 4 stores. Any record is judged by what it finds, also where the animal is held by now.
   The reply is the refusal number, 0 where it was made. Refusals 1, 2, 3, 8, 4, as in set of that animal; then 12. */
BOUGHLADDER_MUST_USE
uint32_t boughladder_step_move(uint32_t *slots, size_t slots_length, uint32_t *counters, size_t counters_length,
                               const uint64_t *items, size_t items_length, BoughladderMove move, uint64_t animal,
                               uint32_t permission, uint64_t issued, uint64_t now);

/* The final store, in 7 stores: the animal into that place and slot, with the stamp issued.
   The reply is the refusal number, 0 where it was made. Refusals 1, 2, 3, 8, 4, as in set of that animal; then 12. */
BOUGHLADDER_MUST_USE
uint32_t boughladder_step_enter(uint32_t *slots, size_t slots_length, uint32_t *counters, size_t counters_length,
                                uint64_t *items, size_t items_length, size_t place, size_t slot, uint64_t animal,
                                uint32_t permission, uint64_t issued, uint64_t now);

/* Takes the animal's entry away. The reply is the refusal number, 0 for success.
   Refusals 1, 2, 8, 4, 7. */
BOUGHLADDER_MUST_USE
uint32_t boughladder_delete(uint32_t *slots, size_t slots_length, uint32_t *counters, size_t counters_length,
                            uint64_t *items, size_t items_length, uint64_t animal);

/* Delete, of which only the first k stores of 7 are made.
   Reply and refusals as delete, for every k. */
BOUGHLADDER_MUST_USE
uint32_t boughladder_delete_cut(uint32_t *slots, size_t slots_length, uint32_t *counters, size_t counters_length,
                                uint64_t *items, size_t items_length, uint64_t animal, uint64_t k);

/* Takes the first animal from the hand on that was not here lately, and clears the recent words that it passes (CLOCK).
   The hand, 0 to M - 1, is kept by the caller: 0 after fresh, then the reply's. Refusals 1, 7, 10, 8, 4. */
BOUGHLADDER_MUST_USE
BoughladderEvicting boughladder_evict(uint32_t *slots, size_t slots_length, uint32_t *counters,
                                      size_t counters_length, uint64_t *items, size_t items_length, size_t hand);

/* Evict, of which only the first k stores are made: one for each recent word that it clears, then 7.
   Reply, hand and refusals as evict, for every k. */
BOUGHLADDER_MUST_USE
BoughladderEvicting boughladder_evict_cut(uint32_t *slots, size_t slots_length, uint32_t *counters,
                                          size_t counters_length, uint64_t *items, size_t items_length, size_t hand,
                                          uint64_t k);

/* Writes the places that are taken, in order, 20 bytes each, low byte first: animal 8, permission 4, stamp 8.
   The bytes behind them stay as they were. Refusals 1, 9. */
BOUGHLADDER_MUST_USE
BoughladderListing boughladder_list(const uint32_t *slots, size_t slots_length, const uint32_t *counters,
                                    size_t counters_length, const uint64_t *items, size_t items_length,
                                    uint8_t *buffer, size_t buffer_length);

/* Read without hashing, for an auditor: it walks the places in order, takes the first with that number, and judges it
   as read does, its permission word modulo 2^32. It needs the items alone, and is slower: it may walk all M places.
   On a table that finished calls have made from fresh on, it answers as read does, for every number, limit and minute.
   So where the two differ, a call was cut off, something else wrote, or other lengths were lent. It answers there too,
   even where read refuses with 8 or 4, and that answer opens no gate.
   Refusals 1 (for the length of the items), 2, 3, in this order. */
BOUGHLADDER_MUST_USE
BoughladderReading boughladder_plain_read(const uint64_t *items, size_t items_length, uint64_t animal, uint64_t limit,
                                          uint64_t now);

/* Judges memory that others have built or that a cabinet brings: a yes, condition 0, exactly if none of the eight
   conditions is broken; else the first that is, and where. What our finished calls leave, from fresh on, gets a yes.
   After a yes, whoever built the table, it answers from then on as the order demands; it needs no fresh. Stamps are no
   condition, and the hand is not in the memory. It refuses nothing and stores nothing. A full table takes less than a
   millisecond. */
BOUGHLADDER_MUST_USE
BoughladderJudgement boughladder_judge(const uint32_t *slots, size_t slots_length, const uint32_t *counters,
                                       size_t counters_length, const uint64_t *items, size_t items_length);

/* One byte of the 32-bit FNV-1a hash, which decides an animal's buckets: start with h = 2166136261.
   For tests of a cabinet against the published vectors. */
uint32_t boughladder_fnv_byte(uint32_t h, uint8_t byte);

/* The lent memory in one piece. Read, plain read, find, list, judge and plan take a pointer to const; any other call
   through one is a warning, in C++ an error. */
typedef struct BoughladderTable {
    uint32_t *slots;
    size_t slots_length;
    uint32_t *counters;
    size_t counters_length;
    uint64_t *items;
    size_t items_length;
} BoughladderTable;

/* A table of three arrays, to begin a BoughladderTable with; it works out the lengths.
   Slots and counters that are swapped do not compile. Neither do a pointer for an array, an array of another type, a
   wrong length, and more counters than buckets. The library takes such counters, but only judge looks at those behind
   the first N; to shut them out is what tells a swap. Memory from malloc: fill the fields by name. */
#define BOUGHLADDER_TABLE(slots, counters, items)                                                                 \
    {                                                                                                             \
        (slots), BOUGHLADDER_WORDS_(slots, uint32_t), (counters), BOUGHLADDER_WORDS_(counters, uint32_t), (items), \
            BOUGHLADDER_WORDS_(items, uint64_t) +                                                                 \
                BOUGHLADDER_DEMAND_(BOUGHLADDER_GOOD_SHAPE(sizeof(slots) / 16, sizeof(counters) / 4,              \
                                                           sizeof(items) / 32) &&                                 \
                                        sizeof(slots) % 16 == 0 && sizeof(items) % 32 == 0,                       \
                                    no_shape_of_a_table) +                                                        \
                BOUGHLADDER_DEMAND_(sizeof(counters) / 4 <= sizeof(slots) / 16, slots_and_counters_swapped)       \
    }

/* The words of an array; of a pointer it does not compile. */
#define BOUGHLADDER_WORDS_(array, type)                                                                         \
    (sizeof(array) / sizeof(type) +                                                                             \
     BOUGHLADDER_DEMAND_(sizeof(*(1 ? &(array) : (type(*)[sizeof(array) / sizeof(type)])0)) == sizeof(array), \
                         not_an_array_of_##type))

/* 0; or an error that shows the name, in C, where the fact does not hold. */
#ifdef __cplusplus
#define BOUGHLADDER_DEMAND_(fact, name) (0 * sizeof(char[(fact) ? 1 : -1]))
#else
#define BOUGHLADDER_DEMAND_(fact, name) (0 * sizeof(struct { char name[(fact) ? 1 : -1]; }))
#endif

/* The parts of a table, as the calls over the runs take them. */
#define BOUGHLADDER_LENT_(t) \
    (t)->slots, (t)->slots_length, (t)->counters, (t)->counters_length, (t)->items, (t)->items_length

/*
 * The calls over a table. Replies and refusals are those of the call over the runs of the same name.
 */

BOUGHLADDER_MUST_USE
static inline uint32_t boughladder_table_fresh(BoughladderTable *table) {
    return boughladder_fresh(BOUGHLADDER_LENT_(table));
}

BOUGHLADDER_MUST_USE
static inline BoughladderReading boughladder_table_read(const BoughladderTable *table, uint64_t animal, uint64_t limit,
                                                        uint64_t now) {
    return boughladder_read(BOUGHLADDER_LENT_(table), animal, limit, now);
}

BOUGHLADDER_MUST_USE
static inline BoughladderReading boughladder_table_serve(BoughladderTable *table, uint64_t animal, uint64_t limit,
                                                         uint64_t now) {
    return boughladder_serve(BOUGHLADDER_LENT_(table), animal, limit, now);
}

BOUGHLADDER_MUST_USE
static inline BoughladderFinding boughladder_table_find(const BoughladderTable *table, uint64_t animal) {
    return boughladder_find(BOUGHLADDER_LENT_(table), animal);
}

/* With the stamp issued. */
BOUGHLADDER_MUST_USE
static inline BoughladderSetting boughladder_table_set(BoughladderTable *table, uint64_t animal, uint32_t permission,
                                                       uint64_t issued, uint64_t now) {
    return boughladder_set(BOUGHLADDER_LENT_(table), animal, permission, issued, now);
}

BOUGHLADDER_MUST_USE
static inline BoughladderSetting boughladder_table_set_cut(BoughladderTable *table, uint64_t animal,
                                                           uint32_t permission, uint64_t issued, uint64_t now,
                                                           uint64_t k) {
    return boughladder_set_cut(BOUGHLADDER_LENT_(table), animal, permission, issued, now, k);
}

BOUGHLADDER_MUST_USE
static inline BoughladderPlan boughladder_table_plan(const BoughladderTable *table, uint64_t animal,
                                                     uint32_t permission, uint64_t issued, uint64_t now) {
    return boughladder_plan(BOUGHLADDER_LENT_(table), animal, permission, issued, now);
}

BOUGHLADDER_MUST_USE
static inline uint32_t boughladder_table_step_move(BoughladderTable *table, BoughladderMove move, uint64_t animal,
                                                   uint32_t permission, uint64_t issued, uint64_t now) {
    return boughladder_step_move(BOUGHLADDER_LENT_(table), move, animal, permission, issued, now);
}

BOUGHLADDER_MUST_USE
static inline uint32_t boughladder_table_step_enter(BoughladderTable *table, size_t place, size_t slot,
                                                    uint64_t animal, uint32_t permission, uint64_t issued,
                                                    uint64_t now) {
    return boughladder_step_enter(BOUGHLADDER_LENT_(table), place, slot, animal, permission, issued, now);
}

BOUGHLADDER_MUST_USE
static inline uint32_t boughladder_table_delete(BoughladderTable *table, uint64_t animal) {
    return boughladder_delete(BOUGHLADDER_LENT_(table), animal);
}

BOUGHLADDER_MUST_USE
static inline uint32_t boughladder_table_delete_cut(BoughladderTable *table, uint64_t animal, uint64_t k) {
    return boughladder_delete_cut(BOUGHLADDER_LENT_(table), animal, k);
}

BOUGHLADDER_MUST_USE
static inline BoughladderEvicting boughladder_table_evict(BoughladderTable *table, size_t hand) {
    return boughladder_evict(BOUGHLADDER_LENT_(table), hand);
}

BOUGHLADDER_MUST_USE
static inline BoughladderEvicting boughladder_table_evict_cut(BoughladderTable *table, size_t hand, uint64_t k) {
    return boughladder_evict_cut(BOUGHLADDER_LENT_(table), hand, k);
}

BOUGHLADDER_MUST_USE
static inline BoughladderListing boughladder_table_list(const BoughladderTable *table, uint8_t *buffer,
                                                        size_t buffer_length) {
    return boughladder_list(BOUGHLADDER_LENT_(table), buffer, buffer_length);
}

/* Of the table's items alone. */
BOUGHLADDER_MUST_USE
static inline BoughladderReading boughladder_table_plain_read(const BoughladderTable *table, uint64_t animal,
                                                              uint64_t limit, uint64_t now) {
    return boughladder_plain_read(table->items, table->items_length, animal, limit, now);
}

BOUGHLADDER_MUST_USE
static inline BoughladderJudgement boughladder_table_judge(const BoughladderTable *table) {
    return boughladder_judge(BOUGHLADDER_LENT_(table));
}

/*
 * What to make of the replies.
 */

/* The lane of an animal by the reply to its read or serve: holding for every refusal and for all that is not fresh.
   Not by a plain read's reply, which tells of no damage. */
static inline enum BoughladderLane boughladder_lane(BoughladderReading reading) {
    if (reading.refusal != BOUGHLADDER_OK || reading.kind != BOUGHLADDER_FRESH) return BOUGHLADDER_HOLDING;
    if ((reading.permission & BOUGHLADDER_MAY_MILK) != 0) return BOUGHLADDER_MILKING;
    if ((reading.permission & BOUGHLADDER_MAY_GRAZE) != 0) return BOUGHLADDER_GRAZING;
    return BOUGHLADDER_HOLDING;
}

/* A refusal number as a short sentence. */
static inline const char *boughladder_refusal_text(uint32_t refusal) {
    switch (refusal) {
        case BOUGHLADDER_OK: return "not refused";
        case BOUGHLADDER_BAD_SHAPE: return "a length of the lent memory is wrong, or the hand is too large";
        case BOUGHLADDER_NO_ANIMAL: return "the animal number is 0";
        case BOUGHLADDER_BAD_TIME: return "the limit is too large, now is no minute, or issued is later than now";
        case BOUGHLADDER_DAMAGED: return "a damaged word was read";
        case BOUGHLADDER_NO_PLACE: return "no vacant place for a new animal";
        case BOUGHLADDER_NO_ROOM: return "no room within four moves for a new animal";
        case BOUGHLADDER_NOBODY: return "the animal to delete is absent, or nobody is there to evict";
        case BOUGHLADDER_BUSY: return "busy: a write was cut off";
        case BOUGHLADDER_SHORT_BUFFER: return "the buffer is too short for the list";
        case BOUGHLADDER_NO_VICTIM: return "the hand found no victim";
        case BOUGHLADDER_LATE: return "late: a permission that was issued later is held";
        case BOUGHLADDER_NOT_AS_PLANNED: return "the animal to plan for is held, or a step can't be made as planned";
        default: return "no refusal number";
    }
}

/* A judgement's condition as a short sentence. */
static inline const char *boughladder_condition_text(uint32_t condition) {
    switch (condition) {
        case BOUGHLADDER_SOUND: return "sound";
        case BOUGHLADDER_WRONG_LENGTH: return "a run has a wrong length";
        case BOUGHLADDER_DAMAGED_WORD: return "a slot word is damaged";
        case BOUGHLADDER_ODD_COUNTER: return "a counter is odd";
        case BOUGHLADDER_STRAY_SLOT: return "a slot does not point to an animal that belongs there";
        case BOUGHLADDER_NOT_ONE_SLOT: return "not exactly one slot points to a place that is taken";
        case BOUGHLADDER_TWIN: return "two places hold the same animal";
        case BOUGHLADDER_WIDE_PERMISSION: return "a permission does not fit 32 bits";
        case BOUGHLADDER_VACANT_NOT_ZERO: return "a vacant place is not all zero";
        default: return "no condition number";
    }
}

/* A number of a list's bytes, low byte first on every machine. */
static inline uint64_t boughladder_number_(const uint8_t *bytes, unsigned count) {
    uint64_t number = 0;
    while (count > 0) number = number << 8 | bytes[--count];
    return number;
}

/* Record `which` of a list, from 0 on; the list may stand at any address. It must have been written: which < count. */
static inline BoughladderRecord boughladder_record(const uint8_t *list, size_t which) {
    const uint8_t *bytes = list + BOUGHLADDER_RECORD_BYTES * which;
    BoughladderRecord record;
    record.animal = boughladder_number_(bytes, 8);
    record.permission = (uint32_t)boughladder_number_(bytes + 8, 4);
    record.stamp = boughladder_number_(bytes + 12, 8);
    return record;
}

#ifdef __cplusplus
}
#endif

#endif
