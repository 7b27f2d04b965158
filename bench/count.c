/*
 * count.c: the same 2,000 calls of each kind on each table at 90 % load, for `valgrind --tool=callgrind`, which counts
 * the instructions. Run by bench/run where valgrind is installed. The second C table has no evict.
 */
#include "anchor.h"
#include "herd.h"
#include "second.h"

#include <stdio.h>
#include <string.h>

#define CALLS 2000

static Table ours, theirs, others, trial;
static BoughladderMove there[CALLS / 2], back[CALLS / 2];
static size_t places[CALLS], slots[CALLS]; /* where the animals go in one step */

/* How each table is passed to its calls, and its items to the plain read. */
#define boughladder_TABLE TABLE
#define anchor_TABLE TABLE
#define second_TABLE &second
#define boughladder_ITEMS t->items, 4 * M
#define anchor_ITEMS t->items, 4 * M
#define second_ITEMS &second

/* Neither inlined nor joined with its like, so that callgrind tells each kind of work by its name. */
#define WORK(name)                                                 \
    __attribute__((noinline, no_icf)) static void name(Table *t) { \
        const BoughladderTable second = {TABLE};                   \
        (void)second;
#define KIND(who, works) /* reads of held animals, by the kind of their numbers */                                      \
    WORK(who##_##works)                                                                                                 \
        for (size_t i = 0; i < CALLS; i++) t->sum += who##_read(who##_TABLE, held[i], LIMIT, NOW).kind;                 \
    }
#define WORKS(who)                                                                                                      \
    WORK(who##_reads)                                                                                                   \
        for (size_t i = 0; i < CALLS; i++)                                                                              \
            t->sum += who##_read(who##_TABLE, i % 10 ? held[i] : i + 1, LIMIT, NOW).kind;                               \
    }                                                                                                                   \
    WORK(who##_serves)                                                                                                  \
        for (size_t i = 0; i < CALLS; i++)                                                                              \
            t->sum += who##_serve(who##_TABLE, i % 10 ? held[i] : i + 1, LIMIT, NOW).kind;                              \
    }                                                                                                                   \
    WORK(who##_plains)                                                                                                  \
        for (size_t i = 0; i < CALLS; i++)                                                                              \
            t->sum += who##_plain_read(who##_ITEMS, i % 10 ? held[i] : i + 1, LIMIT, NOW).kind;                         \
    }                                                                                                                   \
    WORK(who##_updates)                                                                                                 \
        for (size_t i = 0; i < CALLS; i++) t->sum += who##_set(who##_TABLE, held[i], 1, NOW, NOW).refusal;              \
    }                                                                                                                   \
    WORK(who##_deletes)                                                                                                 \
        for (size_t i = 0; i < CALLS; i++) t->sum += who##_delete(who##_TABLE, held[i]);                                \
    }                                                                                                                   \
    KIND(who, eights)                                                                                                   \
    KIND(who, tags)                                                                                                     \
    KIND(who, smalls)                                                                                                   \
    WORK(who##_new) /* into the places that the deletes left, each the lowest vacant one */                             \
        for (size_t i = 0; i < CALLS; i++) t->sum += who##_set(who##_TABLE, held[i], 1, NOW, NOW).visits;               \
    }                                                                                                                   \
    WORK(who##_plans)                                                                                                   \
        for (size_t i = 0; i < CALLS; i++) t->sum += who##_plan(who##_TABLE, i + 1, 1, NOW, NOW).slot;                  \
    }                                                                                                                   \
    WORK(who##_moves) /* there and back */                                                                              \
        for (size_t i = 0; i < CALLS; i++)                                                                              \
            t->sum += who##_step_move(who##_TABLE, i % 2 ? back[i / 2] : there[i / 2], i + 1, 1, NOW, NOW);             \
    }                                                                                                                   \
    WORK(who##_enters)                                                                                                  \
        for (size_t i = 0; i < CALLS; i++)                                                                              \
            t->sum += who##_step_enter(who##_TABLE, places[i], slots[i], held[i], 1, NOW, NOW);                         \
    }
#define EVICTS(who)                                                                                                     \
    WORK(who##_evicts)                                                                                                  \
        size_t hand = 0;                                                                                                \
        for (size_t i = 0; i < CALLS; i++) {                                                                            \
            BoughladderEvicting e = who##_evict(TABLE, hand);                                                           \
            t->sum += e.looked;                                                                                         \
            hand = e.hand;                                                                                              \
        }                                                                                                               \
    }
WORKS(boughladder)
WORKS(anchor)
WORKS(second)
EVICTS(boughladder)
EVICTS(anchor)

#define ALL(works) boughladder_##works(&ours), anchor_##works(&theirs), second_##works(&others)

static void fill(uint64_t (*number)(void)) {
    Table *t = &ours;
    memset(t, 0, sizeof *t);
    for (herd = 0; herd < M * 9 / 10;) {
        uint64_t animal = number();
        if (boughladder_set(TABLE, animal, 1, NOW - any() % 1000, NOW).refusal == 0) held[herd++] = animal;
    }
    theirs = others = ours;
}

/* Entries with a free slot in their other bucket. */
static void choose_moves(void) {
    for (size_t i = 0; i < CALLS / 2;) {
        size_t from = any() % (4 * N), to;
        uint32_t tag = ours.slots[from] >> 16;
        to = 4 * (from / 4 ^ ((tag * 1540483477u % N) | 1));
        while (to % 4 < 3 && ours.slots[to] != 0) to++;
        if (tag == 0 || ours.slots[to] != 0) continue;
        there[i] = (BoughladderMove){from, tag, to};
        back[i++] = (BoughladderMove){to, tag, from};
    }
}

/* The first animals of the herd leave, and others, whose plans have no moves, are to take their places. */
static void choose_places(void) {
    Table *t = &ours;
    for (size_t i = 0; i < CALLS; i++) boughladder_delete(TABLE, held[i]);
    trial = theirs = others = ours;
    t = &trial;
    for (size_t i = 0; i < CALLS;) {
        uint64_t animal = any();
        BoughladderPlan plan = boughladder_plan(TABLE, animal, 1, NOW, NOW);
        if (plan.refusal != 0 || plan.count != 0) continue;
        boughladder_step_enter(TABLE, plan.place, plan.slot, animal, 1, NOW, NOW);
        held[i] = animal, places[i] = plan.place, slots[i++] = plan.slot;
    }
}

static int differ(const Table *a, const Table *b) { return memcmp(a, b, sizeof *a) != 0; }

int main(void) {
    fill(ear_tag);
    ALL(tags);
    int different = differ(&ours, &theirs) || differ(&ours, &others);
    fill(small);
    ALL(smalls);
    different |= differ(&ours, &theirs) || differ(&ours, &others);
    fill(any);
    ALL(eights);
    ALL(reads);
    ALL(serves);
    ALL(plains);
    ALL(updates);
    ALL(plans);
    choose_moves();
    ALL(moves);
    ALL(deletes);
    ALL(new);
    different |= differ(&ours, &others);
    for (size_t p = 0; p < M; p++) ours.items[4 * p + 3] = theirs.items[4 * p + 3] = 0;
    boughladder_evicts(&ours), anchor_evicts(&theirs);
    different |= differ(&ours, &theirs);
    uint64_t sum = ours.sum;
    fill(any);
    choose_places();
    ALL(enters);
    if (different || differ(&ours, &theirs) || differ(&ours, &others)) {
        puts("DIFFERENCE between the tables");
        return 1;
    }
    return sum == 0 || ours.sum != 0; /* no final store is refused */
}
