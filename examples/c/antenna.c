/*
 * Two tasks and one mutex: the office's task loads a list each day, the antenna's task asks for the cows that come.
 * Every call on the table stands between lock and unlock, a read as well. Run by `examples/c/run antenna`.
 */
#define _POSIX_C_SOURCE 200809L
#include <inttypes.h>
#include <pthread.h>
#include <stdio.h>
#include <stdlib.h>

#include "boughladder.h"

enum { PLACES = 40, COWS = 50, DAYS = 400, DAY = 1440, LIMIT = 720 };
static uint32_t slots[BOUGHLADDER_SLOTS(16)], counters[8];
static uint64_t items[BOUGHLADDER_ITEMS(PLACES)];

/* What the two tasks share, and the mutex that is held over each use of it. */
static struct {
    pthread_mutex_t mutex;
    BoughladderTable table;
    size_t hand;
    uint64_t minute;
    int over;
} gate = {PTHREAD_MUTEX_INITIALIZER, BOUGHLADDER_TABLE(slots, counters, items), 0, 0, 0};

static void lock(void) {
    if (pthread_mutex_lock(&gate.mutex) != 0) abort();
}

static void unlock(void) {
    if (pthread_mutex_unlock(&gate.mutex) != 0) abort();
}

/* The permission that the office gives a cow on a day: milking, grazing and hold in turn. */
static uint32_t given(uint64_t cow, uint64_t day) { return (uint32_t)((cow + day) % 3); }

/* Stores one permission, issued this minute: here office and gate are one; a gate passes the minute that its list brings.
   Where the table is full, a cow that was not here lately goes. All in one locked part. */
static uint32_t store(uint64_t cow, uint32_t permission, uint64_t minute) {
    BoughladderSetting stored;
    lock();
    gate.minute = minute;
    stored = boughladder_table_set(&gate.table, cow, permission, minute, minute);
    if (stored.refusal == BOUGHLADDER_NO_PLACE || stored.refusal == BOUGHLADDER_NO_ROOM) {
        BoughladderEvicting gone = boughladder_table_evict(&gate.table, gate.hand);
        gate.hand = gone.hand;
        if (gone.refusal == 0) stored = boughladder_table_set(&gate.table, cow, permission, minute, minute);
    }
    unlock();
    return stored.refusal;
}

static void *office(void *refused) {
    uint64_t day, cow;
    for (day = 0; day < DAYS; day++)
        for (cow = 1; cow <= COWS; cow++)
            if (store(cow, given(cow, day), day * DAY) != 0) ++*(unsigned long *)refused;
    lock();
    gate.over = 1;
    unlock();
    return NULL;
}

/* Asks for every cow in turn until the office is done, and counts the lanes and the answers that no list gave. */
static void *antenna(void *counts) {
    unsigned long *lanes = (unsigned long *)counts, *wrong = lanes + 3;
    uint64_t cow = 0;
    int over = 0;
    while (!over) {
        BoughladderReading r;
        uint64_t minute;
        cow = cow % COWS + 1;
        lock();
        minute = gate.minute;
        r = boughladder_table_serve(&gate.table, cow, LIMIT, minute);
        over = gate.over;
        unlock();
        lanes[boughladder_lane(r)]++;
        /* Her stamp is now, minus the limit, plus what is left of it. */
        if (r.refusal != 0 ||
            (r.kind == BOUGHLADDER_FRESH && r.permission != given(cow, (minute + (uint64_t)r.left - LIMIT) / DAY)))
            ++*wrong;
    }
    return NULL;
}

int main(void) {
    pthread_t writer, reader;
    unsigned long refused = 0, counts[4] = {0, 0, 0, 0};
    if (boughladder_table_fresh(&gate.table) != 0) return 1;
    if (pthread_create(&reader, NULL, antenna, counts) != 0 || pthread_create(&writer, NULL, office, &refused) != 0) {
        puts("antenna: no second task");
        return 1;
    }
    pthread_join(writer, NULL);
    pthread_join(reader, NULL);
    printf("office: %d days, %d cows each, %lu not stored\n", DAYS, COWS, refused);
    printf("antenna: %lu held, %lu to milking, %lu to grazing, %lu answers that no list gave\n", counts[0], counts[1],
           counts[2], counts[3]);
    return refused == 0 && counts[1] > 0 && counts[2] > 0 && counts[3] == 0 ? 0 : 1;
}
