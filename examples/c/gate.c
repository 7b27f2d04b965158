/* A gate: it makes a table, loads lists, a late one too, serves a few cows and the bull, and says why one is held. At
   the end the auditor's plain read goes over the list, which has an entry from before 4.0.0. Run by run. */
#include <inttypes.h>
#include <stdio.h>
#include <stdlib.h>

#include "boughladder.h"

/* The lent memory: 64 buckets, 64 counters, 200 places. */
enum { PLACES = 200, LIMIT = 720, WEEK = BOUGHLADDER_LARGEST_LIMIT, BULL = 900 };
static uint32_t slots[BOUGHLADDER_SLOTS(64)];
static uint32_t counters[64];
static uint64_t items[BOUGHLADDER_ITEMS(PLACES)];
static BoughladderTable table = BOUGHLADDER_TABLE(slots, counters, items);

/* The office writes into a list when it was issued. Permissions: bit 0 milking, else bit 1 grazing, else hold her. */
typedef struct {
    uint64_t issued;
    unsigned cows;
    struct {
        uint64_t animal;
        uint32_t permission;
    } cow[3];
} List;
static const List yesterday = {100, 3, {{3101, 1}, {3102, 3}, {3103, 0}}};
static const List today = {890, 2, {{3101, 0}, {3102, 3}}}; /* 3101 was treated */
/* The bull's permission is issued anew each week, and a week is his limit. */
static const List this_week = {100, 1, {{BULL, 2}}}, next_week = {10180, 1, {{BULL, 2}}};

/* What was not as expected is counted. */
static int wrong;

static const char *called(uint64_t animal) { return animal == BULL ? "bull" : "cow"; }

static void begin(void) {
    uint32_t refusal = boughladder_table_fresh(&table);
    if (refusal != 0) {
        printf("no table: %s\n", boughladder_refusal_text(refusal));
        exit(1);
    }
}

static void load(const List *list, uint64_t now, unsigned expected) {
    unsigned i, loaded = 0;
    for (i = 0; i < list->cows; i++) {
        uint64_t animal = list->cow[i].animal;
        uint32_t permission = list->cow[i].permission;
        BoughladderSetting stored = boughladder_table_set(&table, animal, permission, list->issued, now);
        if (stored.refusal != 0)
            printf("%s %" PRIu64 " not stored: refusal %" PRIu32 ", %s\n", called(animal), animal, stored.refusal,
                   boughladder_refusal_text(stored.refusal));
        else
            loaded++;
    }
    wrong += loaded != expected;
    printf("minute %" PRIu64 ": %u permission%s loaded, issued in minute %" PRIu64 "\n", now, loaded,
           loaded == 1 ? "" : "s", list->issued);
}

/* The lane decides; the rest of the answer only says why. */
static void serve(uint64_t animal, uint64_t limit, uint64_t now, enum BoughladderLane expected) {
    static const char *const lanes[] = {"is held", "goes milking", "goes grazing"};
    BoughladderReading r = boughladder_table_serve(&table, animal, limit, now);
    enum BoughladderLane lane = boughladder_lane(r);
    wrong += lane != expected;
    printf("minute %" PRIu64 ": %s %" PRIu64 " %s: ", now, called(animal), animal, lanes[lane]);
    if (r.refusal != 0)
        printf("refusal %u, %s\n", (unsigned)r.refusal, boughladder_refusal_text(r.refusal));
    else if (r.kind == BOUGHLADDER_FRESH)
        printf("fresh, permission %" PRIu32 ", %" PRId64 " minute%s left\n", r.permission, r.left, r.left == 1 ? "" : "s");
    else if (r.kind == BOUGHLADDER_OLD && r.left == BOUGHLADDER_LEAST_LEFT)
        printf("old, overdue by as much as is ever told\n");
    else if (r.kind == BOUGHLADDER_OLD)
        printf("old, %" PRId64 " minute%s overdue\n", -r.left, r.left == -1 ? "" : "s");
    else if (r.kind == BOUGHLADDER_AHEAD)
        printf("ahead, the permission is stamped later than now\n");
    else
        printf("absent, no permission came\n");
}

/* For the auditor: whether plain read, which knows no hashing, answers as read. */
static int agreed(uint64_t animal, uint64_t now) {
    BoughladderReading a = boughladder_table_read(&table, animal, LIMIT, now);
    BoughladderReading b = boughladder_table_plain_read(&table, animal, LIMIT, now);
    return a.refusal == b.refusal && a.kind == b.kind && a.permission == b.permission && a.left == b.left;
}

int main(void) {
    static uint8_t buffer[BOUGHLADDER_LIST_BYTES(PLACES)];
    size_t hand = 0, i;
    BoughladderFinding at;
    BoughladderEvicting gone;
    BoughladderListing list;

    begin();
    load(&yesterday, 110, 3);
    load(&this_week, 110, 1);
    serve(3101, LIMIT, 820, BOUGHLADDER_MILKING);
    serve(3102, LIMIT, 821, BOUGHLADDER_HOLDING); /* a minute too late */
    serve(3103, LIMIT, 820, BOUGHLADDER_HOLDING); /* fresh, and no bit is set */
    serve(BULL, WEEK, 821, BOUGHLADDER_GRAZING);  /* as old as theirs, by another limit */
    serve(3102, LIMIT, 99, BOUGHLADDER_HOLDING);  /* the clock was set back */
    serve(4711, LIMIT, 200, BOUGHLADDER_HOLDING); /* not on the list */
    serve(0, LIMIT, 200, BOUGHLADDER_HOLDING);
    serve(3101, 20000, 200, BOUGHLADDER_HOLDING);

    /* The network was down. Today's list comes first, and then the relay delivers yesterday's once more. Who is on
       today's keeps it; for the others nothing later is held, and their permissions are as old as they are. */
    load(&today, 900, 2);
    load(&yesterday, 905, 1);
    serve(3101, LIMIT, 906, BOUGHLADDER_HOLDING);
    serve(3102, LIMIT, 906, BOUGHLADDER_MILKING);
    serve(3103, LIMIT, 906, BOUGHLADDER_HOLDING);
    load(&today, 889, 0); /* the clock was set back: issued later than now */

    /* The power goes in the middle of a set: two stores of five were made, and her counter is odd. */
    if (boughladder_table_set_cut(&table, 3102, 7, 910, 910, 2).refusal != 0) return 1;
    serve(3102, LIMIT, 911, BOUGHLADDER_HOLDING);
    begin(); /* only fresh helps a busy counter */
    load(&today, 912, 2);
    serve(3102, LIMIT, 913, BOUGHLADDER_MILKING);

    /* Somebody wrote over a slot of cow 3102. */
    at = boughladder_table_find(&table, 3102);
    for (i = 0; i < table.slots_length; i++)
        if (slots[i] != 0 && slots[i] % 65536 == at.place) slots[i] = 0xdeadbeef;
    serve(3102, LIMIT, 914, BOUGHLADDER_HOLDING);
    wrong += agreed(3102, 914); /* plain read finds her still: no reason to open, and the auditor sees the damage */
    begin();
    load(&today, 915, 2);
    load(&yesterday, 916, 1);
    load(&this_week, 916, 1);

    /* As a table from before 4.0.0 may hold him: his permission was a standing one. It is retired and opens no gate. */
    at = boughladder_table_find(&table, BULL);
    items[4 * at.place + 2] = BOUGHLADDER_RETIRED_MARK;
    serve(BULL, WEEK, 917, BOUGHLADDER_HOLDING);

    /* Room is made: the hand takes the first cow that was not here lately, after it has passed all once. */
    gone = boughladder_table_evict(&table, hand);
    hand = gone.hand;
    printf("cow %" PRIu64 " evicted, %u places looked at, the hand is at %u\n", gone.victim, (unsigned)gone.looked,
           (unsigned)hand);
    list = boughladder_table_list(&table, buffer, sizeof buffer);
    for (i = 0; i < list.count; i++) {
        BoughladderRecord record = boughladder_record(buffer, i);
        int audited = agreed(record.animal, 920);
        wrong += !audited;
        printf("listed%s: %s %" PRIu64 ", permission %" PRIu32, audited ? " and audited" : "", called(record.animal),
               record.animal, record.permission);
        if (record.stamp == BOUGHLADDER_RETIRED_MARK) puts(", retired");
        else printf(", minute %" PRIu64 "\n", record.stamp);
    }

    /* Any list of his replaces it, and from then on age decides: in time for a week, and then only by the next list. */
    load(&this_week, 921, 1);
    serve(BULL, WEEK, 10180, BOUGHLADDER_GRAZING);
    serve(BULL, WEEK, 10181, BOUGHLADDER_HOLDING);
    load(&next_week, 10182, 1);
    serve(BULL, WEEK, 10182, BOUGHLADDER_GRAZING);
    printf("gate: the list has %u records\n", (unsigned)list.count);
    return list.refusal == 0 && wrong == 0 ? 0 : 1;
}
