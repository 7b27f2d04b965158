/*
 * cycles.c: the cycles of a read by the kind of the animals' numbers, ours beside the two C tables, and of the hash alone.
 * "Waiting": each question hangs on the answer before it, so that a read is timed from the number to the answer.
 * "In a row": the questions are known, so that the processor begins a read before the last one has ended.
 * A byte of the hash takes at least 4 cycles, one byte after the other: an exclusive-or (1) and a product (3).
 * A cycle is what an exclusive-or takes in a chain of them, timed between the reads. Whoever is asked for is held, and fresh.
 * The best round of each counts. Use: cycles [rounds].
 */
#include "anchor.h"
#include "herd.h"
#include "second.h"

#include <stdio.h>
#include <stdlib.h>
#include <string.h>

#define LOAD 90
#define LEFT 620 /* to everybody: the program knows it before the answer, the processor does not */

enum { OURS, ANCHOR, SECOND, TABLES };
static Table tables[TABLES];

/* How each table is passed to its calls. */
#define boughladder_TABLE TABLE
#define anchor_TABLE TABLE
#define second_TABLE &second

/* Nanoseconds a read. The next question hangs on `next`, which is always 0. */
typedef double Work(Table *t);
#define WORK(who, works, next)                                                                     \
    static double who##_##works(Table *t) {                                                        \
        const BoughladderTable second = {TABLE};                                                   \
        uint64_t wait = 0;                                                                         \
        (void)second;                                                                              \
        double start = now_ns();                                                                   \
        for (size_t i = 0; i < READS; i++) {                                                       \
            BoughladderReading r = who##_read(who##_TABLE, asked[i] + wait, LIMIT, NOW);           \
            t->sum += r.kind + r.permission + r.left + r.refusal;                                  \
            wait = next;                                                                           \
        }                                                                                          \
        return (now_ns() - start) / READS;                                                         \
    }
#define WORKS(who)                                                                                 \
    WORK(who, waiting, r.left - LEFT)                                                              \
    WORK(who, row, 0)
WORKS(boughladder)
WORKS(anchor)
WORKS(second)
#define ALL(works) {boughladder_##works, anchor_##works, second_##works}
enum { WAITING, ROW, WAYS };
static Work *const reads[WAYS][TABLES] = {ALL(waiting), ALL(row)};
static const char *const ways[WAYS] = {"waiting", "in a row"};

/* Nanoseconds a hash, by the order's words; each number hangs on the hash before it. */
static double hashes(void) {
    uint32_t h = 0;
    double start = now_ns();
    for (size_t i = 0; i < READS; i++) {
        uint64_t animal = asked[i] ^ h;
        h = 2166136261u;
        for (int k = 0; k < 8; k++) h = (h ^ (uint32_t)(animal >> 8 * k & 255)) * 16777619u;
    }
    double spent = (now_ns() - start) / READS;
    tables[OURS].hand += h; /* used, so that it is made */
    return spent;
}

/* Nanoseconds a cycle. */
static double cycle(void) {
    uint64_t x = 1, y = 3;
    double start = now_ns();
    for (size_t i = 0; i < READS; i++)
        __asm__ volatile(".rept 8\n\txor %1, %0\n\t.endr" : "+&r"(x) : "r"(y));
    return (now_ns() - start) / (8.0 * READS);
}

static uint64_t mixed(void) { return any() % 2 ? any() : small(); }

static const struct {
    const char *name;
    uint64_t (*number)(void);
} herds[] = {{"of eight bytes", any}, {"of six bytes, as on an ear tag", ear_tag}, {"below 2^32", small},
             {"of eight bytes or below 2^32, at random", mixed}};
#define HERDS (sizeof herds / sizeof *herds)

/* Fills all tables with such a herd. */
static void fill(uint64_t (*number)(void)) {
    Table *t = &tables[OURS];
    memset(t, 0, sizeof *t);
    for (herd = 0; herd < (size_t)M * LOAD / 100;) {
        uint64_t animal = number();
        if (boughladder_set(TABLE, animal, (uint32_t)any(), NOW - (LIMIT - LEFT), NOW).refusal == 0) held[herd++] = animal;
    }
    for (int k = 1; k < TABLES; k++) tables[k] = *t;
}

static void least(double *best, double spent) {
    if (spent < *best) *best = spent;
}

int main(int argc, char **argv) {
    static double best[HERDS][WAYS][TABLES];
    double best_cycle = 1e30, best_hash = 1e30;
    int rounds = argc > 1 ? atoi(argv[1]) : 150;
    for (size_t h = 0; h < HERDS; h++) {
        for (int i = 0; i < WAYS * TABLES; i++) best[h][i / TABLES][i % TABLES] = 1e30;
        fill(herds[h].number);
        for (int round = 0; round < rounds; round++) {
            /* New questions each round, or the processor would learn which numbers come when. */
            for (size_t i = 0; i < READS; i++) asked[i] = held[any() % herd];
            least(&best_cycle, cycle());
            least(&best_hash, hashes());
            for (int i = 0; i < WAYS * TABLES; i++) {
                int way = i / TABLES, who = (i + round) % TABLES;
                least(&best[h][way][who], reads[way][who](&tables[who]));
            }
        }
        for (int k = 1; k < TABLES; k++)
            if (tables[k].sum != tables[OURS].sum) {
                printf("DIFFERENCE between the tables\n");
                return 1;
            }
    }
    printf("N %d, V %d, M %d, %d %% load, all held; best of %d rounds; cycles a read\n\n", N, V, M, LOAD, rounds);
    printf("| Numbers | | Ours | Anchor | Second | Ours / the faster |\n|---|---|---|---|---|---|\n");
    for (size_t h = 0; h < HERDS; h++)
        for (int way = 0; way < WAYS; way++) {
            const double *of = best[h][way];
            double faster = of[ANCHOR] < of[SECOND] ? of[ANCHOR] : of[SECOND];
            printf("| %s | %s | %.1f | %.1f | %.1f | %.2f |\n", herds[h].name, ways[way], of[OURS] / best_cycle,
                   of[ANCHOR] / best_cycle, of[SECOND] / best_cycle, of[OURS] / faster);
        }
    printf("\na cycle: %.3f ns; the hash alone, eight bytes, in C: %.1f cycles\n", best_cycle, best_hash / best_cycle);
    return 0;
}
