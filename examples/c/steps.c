/*
 * A set in steps: a nearly full table gets its last cows, and between two steps all others are served. Once the office
 * sends an urgent permission in between, and the plan is overtaken: refusal 12, plan again. With two tasks each call
 * stands between lock and unlock, as in antenna.c. The longest is the plan, which only reads: with a lock for readers
 * and writers no read waits for it. Run by `examples/c/run steps`.
 */
#include <inttypes.h>
#include <stdio.h>

#include "boughladder.h"

enum { PLACES = 64, HERD = 56, COWS = 62, URGENT = 99, TRIES = 3, LIMIT = 720, ISSUED = 100, NOW = 110 };
static uint32_t slots[BOUGHLADDER_SLOTS(16)], counters[16];
static uint64_t items[BOUGHLADDER_ITEMS(PLACES)];
static BoughladderTable table = BOUGHLADDER_TABLE(slots, counters, items);

static unsigned here; /* so many cows of the list are in the table */
static int urgent;    /* whether the office sends one more before the next step */
static unsigned served, moved, overtaken, wrong;

/* Scattered numbers: their buckets fill unevenly, so that a set must move others. */
static uint64_t cow(unsigned n) { return (n + 1) * UINT64_C(0x9e3779b97f4a7c15) >> 16; }

static uint32_t given(unsigned n) { return n % 2 == 0 ? BOUGHLADDER_MAY_MILK : BOUGHLADDER_MAY_GRAZE; }

/* Whatever comes between two steps. No step changes what the others are told. */
static void meanwhile(void) {
    unsigned n;
    for (n = 0; n < here; n++, served++) {
        enum BoughladderLane lane = boughladder_lane(boughladder_table_serve(&table, cow(n), LIMIT, NOW));
        wrong += lane != (n % 2 == 0 ? BOUGHLADDER_MILKING : BOUGHLADDER_GRAZING);
    }
    if (urgent) {
        urgent = 0;
        wrong += boughladder_table_set(&table, cow(URGENT), given(URGENT), NOW, NOW).refusal != 0;
    }
}

/* The steps of a plan, with other calls before each of them: 0, or why one was refused. */
static uint32_t carry_out(const BoughladderPlan *plan, unsigned n) {
    uint32_t refusal = 0;
    size_t k;
    for (k = 0; k < plan->count && refusal == 0; k++) {
        meanwhile();
        refusal = boughladder_table_step_move(&table, plan->moves[k], cow(n), given(n), ISSUED, NOW);
        moved += refusal == 0;
    }
    if (refusal == 0) {
        meanwhile();
        refusal = boughladder_table_step_enter(&table, plan->place, plan->slot, cow(n), given(n), ISSUED, NOW);
    }
    printf("cow %" PRIu64 " to place %u and slot %u, moves: %u; %s\n", cow(n), (unsigned)plan->place,
           (unsigned)plan->slot, (unsigned)plan->count, refusal == 0 ? "stored" : boughladder_refusal_text(refusal));
    return refusal;
}

/* In steps; where other calls have overtaken the plan, by another plan; after a few of them by a set. Every refusal but
   12 is what a set would say. */
static uint32_t store(unsigned n) {
    int tries;
    for (tries = 0; tries < TRIES; tries++) {
        BoughladderPlan plan = boughladder_table_plan(&table, cow(n), given(n), ISSUED, NOW);
        uint32_t refusal;
        if (plan.refusal == BOUGHLADDER_NOT_AS_PLANNED) break; /* she is held, and an update is a set */
        if (plan.refusal != 0) return plan.refusal;
        refusal = carry_out(&plan, n);
        if (refusal != BOUGHLADDER_NOT_AS_PLANNED) return refusal;
        overtaken++;
    }
    return boughladder_table_set(&table, cow(n), given(n), ISSUED, NOW).refusal;
}

int main(void) {
    if (boughladder_table_fresh(&table) != 0) return 1;
    for (here = 0; here < HERD; here++)
        if (boughladder_table_set(&table, cow(here), given(here), ISSUED, NOW).refusal != 0) return 1;
    for (; here < COWS; here++) {
        urgent = here == HERD + 2;
        wrong += store(here) != 0;
    }
    wrong += store(0) != 0; /* held already */
    meanwhile();
    wrong += boughladder_table_judge(&table).condition != BOUGHLADDER_SOUND;
    printf("steps: %u cows in %u slots, moves made: %u, served between: %u, plans overtaken: %u, wrong: %u\n", here + 1,
           (unsigned)table.slots_length, moved, served, overtaken, wrong);
    return moved > 0 && overtaken == 1 && wrong == 0 ? 0 : 1;
}
