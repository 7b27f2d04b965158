/*
 * speed.c: nanoseconds a call of ours and of the two C tables, and the ratio of ours to the faster of the two.
 * The tables hold the same herd in memory of their own and get the same calls. Each round times one portion of calls on
 * each, another one first each time; the best round of each counts. The answers are summed up and must be equal at the end,
 * and so must all words. The second C table has no evict and no list. Use: speed [rounds].
 * A judge gets dumps of the largest table, N 2,048, with some of the 4,096 places live; the anchor's, which tries all pairs,
 * is left out.
 */
#include "anchor.h"
#include "herd.h"
#include "second.h"

#include <inttypes.h>
#include <stdio.h>
#include <stdlib.h>
#include <string.h>

#define BATCH 32
#define PLAINS 500 /* so many of the READS questions: a walk takes far longer than a read */

enum { OURS, ANCHOR, SECOND, TABLES };
static Table tables[TABLES], *const ours = &tables[OURS], before;
static uint64_t absent[M];
static BoughladderMove there[M], back[M];
static size_t places[M], slots[M]; /* where the absent animals go in one step */
static int rounds = 150;

/* How each table is passed to its calls, and its items to the plain read. */
#define boughladder_TABLE TABLE
#define anchor_TABLE TABLE
#define second_TABLE &second
#define boughladder_ITEMS t->items, 4 * M
#define anchor_ITEMS t->items, 4 * M
#define second_ITEMS &second

/* A portion of work gives the time of the calls that it is about; `from` is where its new animals begin. */
typedef double Work(Table *t, size_t from);
#define WORK(name)                            \
    static double name(Table *t, size_t from) { \
        const BoughladderTable second = {TABLE}; \
        (void)second, (void)from;
#define ASKS(who, works, call, lent, count)                                                                 \
    WORK(who##_##works)                                                                                     \
        double start = now_ns();                                                                            \
        for (size_t i = 0; i < count; i++) {                                                                \
            BoughladderReading r = who##_##call(lent, asked[i], LIMIT, NOW);                                \
            t->sum += r.kind + r.permission + r.left + r.refusal;                                           \
        }                                                                                                   \
        return (now_ns() - start) / count;                                                                  \
    }
/* Once for each table: the calls are direct ones, as a user would write them. */
#define WORKS(who)                                                                                          \
    ASKS(who, reads, read, who##_TABLE, READS)                                                              \
    ASKS(who, serves, serve, who##_TABLE, READS)                                                            \
    ASKS(who, plains, plain_read, who##_ITEMS, PLAINS)                                                      \
    WORK(who##_updates) /* issued at or after the stamp that is held, so that none is late */               \
        double start = now_ns();                                                                            \
        for (size_t i = 0; i < herd; i++) {                                                                 \
            uint64_t minute = NOW + i % 1000;                                                               \
            BoughladderSetting s = who##_set(who##_TABLE, held[i], (uint32_t)i, minute, minute);            \
            t->sum += s.refusal + s.visits + s.moves;                                                       \
        }                                                                                                   \
        return (now_ns() - start) / (double)herd;                                                           \
    }                                                                                                       \
    WORK(who##_new)                                                                                         \
        double start = now_ns();                                                                            \
        for (size_t i = from; i < from + BATCH; i++) {                                                      \
            BoughladderSetting s = who##_set(who##_TABLE, absent[i], (uint32_t)i, NOW, NOW);                \
            t->sum += s.refusal + s.visits + s.moves;                                                       \
        }                                                                                                   \
        return (now_ns() - start) / BATCH;                                                                  \
    }                                                                                                       \
    WORK(who##_gone)                                                                                        \
        double start = now_ns();                                                                            \
        for (size_t i = from; i < from + BATCH; i++) t->sum += who##_delete(who##_TABLE, absent[i]);        \
        return (now_ns() - start) / BATCH;                                                                  \
    }                                                                                                       \
    WORK(who##_pairs)                                                                                       \
        double start = now_ns();                                                                            \
        for (size_t i = from; i < from + BATCH; i++) {                                                      \
            BoughladderSetting s = who##_set(who##_TABLE, absent[i], (uint32_t)i, NOW, NOW);                \
            t->sum += s.refusal + s.visits + s.moves + who##_delete(who##_TABLE, absent[i]);                \
        }                                                                                                   \
        return (now_ns() - start) / BATCH;                                                                  \
    }                                                                                                       \
    WORK(who##_plans)                                                                                       \
        double start = now_ns();                                                                            \
        for (size_t i = from; i < from + BATCH; i++) {                                                      \
            BoughladderPlan p = who##_plan(who##_TABLE, absent[i], (uint32_t)i, NOW, NOW);                  \
            t->sum += p.refusal + p.count + p.place + p.slot + p.moves[0].from + p.moves[0].tag + p.moves[0].to;\
        }                                                                                                   \
        return (now_ns() - start) / BATCH;                                                                  \
    }                                                                                                       \
    WORK(who##_steps) /* each move there and back, so that the table stays */                               \
        double start = now_ns();                                                                            \
        for (size_t i = from; i < from + BATCH; i++) {                                                      \
            t->sum += who##_step_move(who##_TABLE, there[i], absent[i], (uint32_t)i, NOW, NOW);             \
            t->sum += who##_step_move(who##_TABLE, back[i], absent[i], (uint32_t)i, NOW, NOW);              \
        }                                                                                                   \
        return (now_ns() - start) / (2 * BATCH);                                                            \
    }                                                                                                       \
    WORK(who##_enters)                                                                                      \
        double start = now_ns();                                                                            \
        for (size_t i = from; i < from + BATCH; i++)                                                        \
            t->sum += who##_step_enter(who##_TABLE, places[i], slots[i], absent[i], (uint32_t)i, NOW, NOW); \
        return (now_ns() - start) / BATCH;                                                                  \
    }
#define MORE_WORKS(who)                                                                                     \
    WORK(who##_evicts)                                                                                      \
        uint64_t victims[BATCH];                                                                            \
        double start = now_ns();                                                                            \
        for (size_t i = 0; i < BATCH; i++) {                                                                \
            BoughladderEvicting e = who##_evict(TABLE, t->hand);                                            \
            t->sum += e.refusal + e.victim + e.looked + e.hand;                                             \
            t->hand = e.hand;                                                                               \
            victims[i] = e.victim;                                                                          \
        }                                                                                                   \
        double spent = (now_ns() - start) / BATCH;                                                          \
        for (size_t i = 0; i < BATCH; i++) t->sum += who##_set(TABLE, victims[i], 1, NOW, NOW).refusal;     \
        return spent;                                                                                       \
    }                                                                                                       \
    WORK(who##_lists)                                                                                       \
        double start = now_ns();                                                                            \
        t->sum += who##_list(TABLE, t->buffer, sizeof t->buffer).count;                                     \
        return now_ns() - start;                                                                            \
    }
WORKS(boughladder)
WORKS(anchor)
WORKS(second)
MORE_WORKS(boughladder)
MORE_WORKS(anchor)

#define ALL(works) static Work *const works[TABLES] = {boughladder_##works, anchor_##works, second_##works};
#define TWO(works) static Work *const works[TABLES] = {boughladder_##works, anchor_##works, NULL};
ALL(reads)
ALL(serves)
ALL(plains)
ALL(updates)
ALL(new)
ALL(gone)
ALL(pairs)
ALL(plans)
ALL(steps)
ALL(enters)
TWO(evicts)
TWO(lists)

/* Fills all tables up to a load in percent with a herd of scattered numbers, and picks the animals that are asked for. */
static void fill(unsigned load) {
    size_t fresh_ones = 0;
    Table *t = ours;
    memset(ours, 0, sizeof *ours);
    settle(ours, load);
    /* The new animals find room at this load with the others of their batch. */
    while (fresh_ones < M) {
        uint64_t animal = any();
        size_t in_batch = fresh_ones % BATCH;
        if (boughladder_set(TABLE, animal, 1, NOW, NOW).refusal != 0) continue;
        absent[fresh_ones++] = animal;
        if (in_batch == BATCH - 1)
            for (size_t i = fresh_ones - BATCH; i < fresh_ones; i++) boughladder_delete(TABLE, absent[i]);
    }
    for (int k = 1; k < TABLES; k++) tables[k] = *ours;
    choose_questions();
}

/* Behind fill: entries with a free slot in their other bucket; and absent animals with room at home, each with the place and
   the slot that a plan gives her when the others of her batch are in. */
static void choose_steps(void) {
    Table *t = ours;
    for (size_t i = 0; i < M;) {
        size_t from = any() % (4 * N), to;
        uint32_t tag = ours->slots[from] >> 16;
        to = 4 * (from / 4 ^ ((tag * 1540483477u % N) | 1));
        while (to % 4 < 3 && ours->slots[to] != 0) to++;
        if (tag == 0 || ours->slots[to] != 0) continue;
        there[i] = (BoughladderMove){from, tag, to};
        back[i++] = (BoughladderMove){to, tag, from};
    }
    for (size_t i = 0; i < M;) {
        uint64_t animal = any();
        BoughladderPlan plan = boughladder_plan(TABLE, animal, 1, NOW, NOW);
        if (plan.refusal != 0 || plan.count != 0) continue;
        boughladder_step_enter(TABLE, plan.place, plan.slot, animal, 1, NOW, NOW);
        absent[i] = animal, places[i] = plan.place, slots[i] = plan.slot;
        if (++i % BATCH == 0)
            for (size_t k = i - BATCH; k < i; k++) boughladder_delete(TABLE, absent[k]);
    }
    for (int k = 1; k < TABLES; k++) tables[k] = *ours;
}

typedef struct {
    double of[TABLES];
} Best;

static const Best none = {{1e30, 1e30, 1e30}};

/* One round: a portion on each table that has the call. */
static void each(Work *const *works, int round, Best *best) {
    size_t from = (size_t)round % (M / BATCH) * BATCH;
    for (int k = 0; k < TABLES; k++) {
        int who = (k + round) % TABLES;
        if (works[who] == NULL) continue;
        double spent = works[who](&tables[who], from);
        if (spent < best->of[who]) best->of[who] = spent;
    }
}

static void row(const char *name, unsigned load, Work *const *works, Best best) {
    double faster = best.of[ANCHOR] < best.of[SECOND] ? best.of[ANCHOR] : best.of[SECOND];
    printf("| %s | %u %% | %.1f | %.1f | ", name, load, best.of[OURS], best.of[ANCHOR]);
    if (works[SECOND] != NULL) printf("%.1f", best.of[SECOND]);
    printf(" | %.2f |\n", best.of[OURS] / faster);
    for (int k = 1; k < TABLES; k++) {
        Table *t = &tables[k];
        if (works[k] == NULL) continue;
        if (ours->sum != t->sum || memcmp(ours->slots, t->slots, sizeof t->slots) != 0 ||
            memcmp(ours->counters, t->counters, sizeof t->counters) != 0 ||
            memcmp(ours->items, t->items, sizeof t->items) != 0 ||
            memcmp(ours->buffer, t->buffer, sizeof t->buffer) != 0) {
            printf("DIFFERENCE between the tables\n");
            exit(1);
        }
    }
}

static void time_all(const char *name, unsigned load, Work *const *works) {
    Best best = none;
    for (int round = 0; round < rounds; round++) each(works, round, &best);
    row(name, load, works, best);
}

/* A dump with so many percent of the places live, which is a yes. Nothing is written, so one memory is enough. */
static void time_judge(const char *name, unsigned load) {
    static uint32_t slots[8192], counters[1024];
    static uint64_t items[4 * M];
#define DUMP slots, 8192, counters, 1024, items, 4 * M
    const BoughladderTable second = {DUMP};
    Best best = none;
    uint64_t noes = boughladder_fresh(DUMP);
    for (size_t live = 0; live < (size_t)M * load / 100;)
        live += boughladder_set(DUMP, any(), (uint32_t)live, NOW, NOW).refusal == 0;
    for (int i = 0; i < 2 * rounds; i++) {
        int who = (i + i / 2) % 2 ? SECOND : OURS; /* another one first each time */
        double start = now_ns();
        BoughladderJudgement j = who == OURS ? boughladder_judge(DUMP) : second_judge(&second);
        double spent = now_ns() - start;
        if (spent < best.of[who]) best.of[who] = spent;
        noes += j.condition;
    }
    printf("| %s | %u %% | %.1f |  | %.1f | %.2f |\n", name, load, best.of[OURS], best.of[SECOND], best.of[OURS] / best.of[SECOND]);
    if (noes != 0) {
        printf("DIFFERENCE: a no\n");
        exit(1);
    }
}

int main(int argc, char **argv) {
    static const unsigned loads[] = {25, 50, 75, 90, 95};
    if (argc > 1) rounds = atoi(argv[1]);
    printf("N %d, V %d, M %d; best of %d rounds; nanoseconds a call\n\n", N, V, M, rounds);
    printf("| Call | Load | Ours | Anchor | Second | Ours / the faster |\n|---|---|---|---|---|---|\n");
    for (int i = 0; i < 5; i++) {
        fill(loads[i]);
        time_all("read, nine in ten held", loads[i], reads);
    }
    for (int i = 0; i < 5; i++) {
        fill(loads[i]);
        time_all("serve, nine in ten held", loads[i], serves);
    }
    fill(90);
    time_all("plain read, nine in ten held", 90, plains);
    for (int i = 0; i < 5; i++) { /* sets and deletes are timed apart */
        Best come = none, go = none;
        fill(loads[i]);
        for (int round = 0; round < 4 * rounds; round++) {
            each(new, round, &come);
            each(gone, round, &go);
        }
        row("set of an absent animal", loads[i], new, come);
        row("delete", loads[i], gone, go);
    }
    for (int i = 0; i < 5; i++) { /* with place 0 vacant the scan for a place is short: search and stores remain */
        fill(loads[i]);
        Table *t = ours;
        boughladder_delete(TABLE, ours->items[0]);
        for (int k = 1; k < TABLES; k++) tables[k] = *ours;
        time_all("set and delete, place 0 vacant", loads[i], pairs);
    }
    static const unsigned full[] = {50, 90, 95};
    for (int i = 0; i < 3; i++) {
        fill(full[i]);
        time_all("plan of an absent animal", full[i], plans);
    }
    for (int i = 0; i < 3; i++) { /* the search remains */
        fill(full[i]);
        Table *t = ours;
        boughladder_delete(TABLE, ours->items[0]);
        for (int k = 1; k < TABLES; k++) tables[k] = *ours;
        time_all("plan, place 0 vacant", full[i], plans);
    }
    fill(90);
    choose_steps();
    time_all("step_move, there and back", 90, steps);
    Best come = none, go = none;
    fill(90);
    choose_steps();
    for (int round = 0; round < 4 * rounds; round++) {
        each(enters, round, &come);
        each(gone, round, &go);
    }
    row("step_enter", 90, enters, come);
    fill(90);
    time_all("update", 90, updates);
    fill(90);
    Best best = none;
    for (int round = 0; round < 4 * rounds; round++) {
        for (size_t p = 0; p < M; p++) ours->items[4 * p + 3] = tables[ANCHOR].items[4 * p + 3] = any() % 4 != 0; /* three in four recent */
        each(evicts, round, &best);
    }
    row("evict, three in four recent", 90, evicts, best);
    fill(90); /* the lower half of the places vacant, the hand behind them, none recent */
    for (size_t p = 0; p < M / 2; p++) {
        Table *t = ours;
        boughladder_delete(TABLE, ours->items[4 * p]);
    }
    for (size_t p = 0; p < M; p++) ours->items[4 * p + 3] = 0;
    ours->hand = M / 2;
    ours->sum = 0;
    before = *ours;
    best = none;
    for (int round = 0; round < rounds; round++) {
        *ours = tables[ANCHOR] = before;
        each(evicts, round, &best);
    }
    row("evict, places 0 to 2,047 vacant, hand behind them", 45, evicts, best);
    fill(90);
    time_all("list, whole", 90, lists);
    time_judge("judge of a dump, N 2,048, all places live", 100);
    time_judge("judge of a dump, N 2,048, half of them", 50);
    time_judge("judge of a dump, N 2,048, all vacant", 0);
    return 0;
}
