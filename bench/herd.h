/*
 * herd.h: what the measuring programs share: the shape, a table's memory, a herd of scattered animal numbers and the
 * questions asked about it. C99 that C++ takes too.
 */
#ifndef HERD_H
#define HERD_H

#include "boughladder.h"

#include <time.h>

/* Not macros: the headers of the peers use such names. */
enum { N = 1024, V = 1024, M = 4096, READS = 20000, NOW = 100000, LIMIT = 720 };

typedef struct {
    uint32_t slots[4 * N], counters[V];
    uint64_t items[4 * M];
    uint8_t buffer[20 * M];
    uint64_t sum; /* of all answers */
    size_t hand;
} Table;

#define TABLE t->slots, 4 * N, t->counters, V, t->items, 4 * M

static uint64_t held[M], asked[READS], state = 7;
static size_t herd; /* animals in held */

static inline uint64_t any(void) { /* splitmix64 */
    uint64_t z = (state += UINT64_C(0x9e3779b97f4a7c15));
    z = (z ^ (z >> 30)) * UINT64_C(0xbf58476d1ce4e5b9);
    z = (z ^ (z >> 27)) * UINT64_C(0x94d049bb133111eb);
    return z ^ (z >> 31);
}

static inline double now_ns(void) {
    struct timespec t;
    clock_gettime(CLOCK_MONOTONIC, &t);
    return 1e9 * (double)t.tv_sec + (double)t.tv_nsec;
}

/* Kinds of numbers besides scattered ones, which have eight bytes: below 2^32; and 15 digits with a country's three in
   front, as on an ear tag, where Germany's 276 gives six bytes. */
static inline uint64_t small(void) { return 1 + any() % UINT32_MAX; }
static inline uint64_t ear_tag(void) { return UINT64_C(276000000000000) + any() % UINT64_C(1000000000000); }

/* Fills a table up to a load in percent. */
static inline void settle(Table *t, unsigned load) {
    size_t want = (size_t)M * load / 100;
    boughladder_fresh(TABLE);
    for (herd = 0; herd < want;) {
        uint64_t animal = any(), stamp = NOW - any() % 1000, permission = any();
        if (boughladder_set(TABLE, animal, (uint32_t)permission, stamp, NOW).refusal == 0) held[herd++] = animal;
    }
}

/* Picks the animals that are asked for: nine in ten held. */
static inline void choose_questions(void) {
    for (size_t i = 0; i < READS; i++) asked[i] = any() % 10 == 0 ? any() : held[any() % herd];
}

#endif
