/*
 * Why a mutex: one task stores a cow's permission again and again while another reads it, first without a mutex, then
 * with one. Permission and stamp are stored as a pair. An answer that is no such pair is torn: it never stood in the
 * table. `torn [SECONDS]` prints both counts. Status 0: torn answers without the mutex and none with it; 77: none came
 * without it in that time, so nothing was shown; 1: one came with it. Never write a program like the first half.
 */
#define _POSIX_C_SOURCE 200809L
#include <inttypes.h>
#include <pthread.h>
#include <stdio.h>
#include <stdlib.h>
#include <time.h>

#include "boughladder.h"

/* Permission and stamp are the same number below NOW, and the limit is NOW: so that number is left of it too. */
enum { COW = 4711, NOW = 10000, ENOUGH = 20 };

/* Item words 1 and 2, permission and stamp, are put on two sides of a border between cache lines of 64 bytes: the
   memory hands them over apart, and torn answers come sooner. Any address that is aligned for a word may be lent. */
static uint64_t lines[64];
static uint32_t slots[BOUGHLADDER_SLOTS(2)], counters[1];
static BoughladderTable table;

static pthread_mutex_t mutex = PTHREAD_MUTEX_INITIALIZER;
static int with_mutex;
static volatile int over;

static void enter(void) {
    if (with_mutex && pthread_mutex_lock(&mutex) != 0) abort();
}

static void leave(void) {
    if (with_mutex && pthread_mutex_unlock(&mutex) != 0) abort();
}

static void *writes(void *nothing) {
    uint32_t day = 0;
    while (!over) {
        uint32_t refusal;
        day = (day + 1) % NOW;
        enter();
        /* An earlier stamp is late (refusal 11), so she is taken away before the days begin again. */
        refusal = day == 0 ? boughladder_table_delete(&table, COW) : 0;
        if (refusal == 0) refusal = boughladder_table_set(&table, COW, day, day, NOW).refusal;
        leave();
        if (refusal != 0) abort();
    }
    return nothing;
}

static double seconds(void) {
    struct timespec t;
    clock_gettime(CLOCK_MONOTONIC, &t);
    return (double)t.tv_sec + 1e-9 * (double)t.tv_nsec;
}

/* Reads for some seconds, or until enough torn answers came; returns how many. */
static unsigned long reads(double limit) {
    unsigned long asked = 0, torn = 0, between = 0;
    double end = seconds() + limit;
    pthread_t writer;
    over = 0;
    if (boughladder_table_fresh(&table) != 0 || boughladder_table_set(&table, COW, 0, 0, NOW).refusal != 0) abort();
    if (pthread_create(&writer, NULL, writes, NULL) != 0) abort();
    while (torn < ENOUGH && (asked % 1000 != 0 || seconds() < end)) {
        BoughladderReading r;
        enter();
        r = boughladder_table_read(&table, COW, NOW, NOW);
        leave();
        asked++;
        /* Absent stands between her delete and the next set: with the mutex nobody sees it. */
        if (r.refusal == BOUGHLADDER_BUSY || (r.refusal == 0 && r.kind == BOUGHLADDER_ABSENT)) {
            between++;
        } else if (r.refusal != 0 || r.kind != BOUGHLADDER_FRESH || r.left != (int64_t)r.permission) {
            if (torn++ == 0)
                printf("torn: permission %" PRIu32 " with stamp %" PRId64 " (refusal %u, kind %u)\n", r.permission,
                       r.left, (unsigned)r.refusal, (unsigned)r.kind);
        }
    }
    over = 1;
    pthread_join(writer, NULL);
    printf("%s the mutex: %lu reads, %lu torn, %lu busy or absent\n", with_mutex ? "with" : "without", asked, torn,
           between);
    return torn + (with_mutex ? between : 0);
}

int main(int n, char **words) {
    double limit = n > 1 ? atof(words[1]) : 4;
    unsigned long without, with;
    size_t first = (64 - (uintptr_t)lines % 64) % 64 / 8 + 6;
    table.slots = slots, table.slots_length = sizeof slots / 4;
    table.counters = counters, table.counters_length = 1;
    table.items = lines + first, table.items_length = BOUGHLADDER_ITEMS(1);
    without = reads(limit);
    with_mutex = 1;
    with = reads(limit);
    if (with != 0) {
        puts("torn: FAILED, wrong answers with the mutex");
        return 1;
    }
    if (without == 0) {
        puts("torn: skipped, no torn answer came without the mutex in that time; one may come all the same");
        return 77;
    }
    puts("torn: shown, torn answers without the mutex and none with it");
    return 0;
}
