/*
 * Makes the calls of scenarios.txt, each between two stores to `marker`, so that a memory trace shows where it begins
 * and ends. Writes to standard output, as raw words: where the runs are, then for each call its answer and all words.
 * stores.py compares this and the trace with what the order says. `stores SCENARIOS` is started by run.
 */
#include <stdio.h>
#include <stdlib.h>
#include <string.h>

#include "boughladder.h"

static uint32_t slots[64], counters[8];
static uint64_t items[256];
static uint8_t buffer[64];
static size_t s, c, i; /* the lengths that are lent */
static volatile uint64_t marker;

#define LENT slots, s, counters, c, items, i
#define MARKED(call) (marker = 1, call, marker = 2)

static void put(const void *bytes, size_t size, size_t count) {
    if (fwrite(bytes, size, count, stdout) != count) exit(2);
}

/* One call, marked, its answer and every word after it. The buffer of the list is garbage before each call. */
static void make(const char *op, const uint64_t *n) {
    uint64_t a[16] = {0};
    BoughladderReading r = {0, 0, 0, 0};
    BoughladderFinding f = {0, 0, 0};
    BoughladderSetting t = {0, 0, 0};
    BoughladderPlan p;
    BoughladderMove m = {n[0], (uint32_t)n[1], n[2]};
    BoughladderEvicting e = {0, 0, 0, 0};
    BoughladderListing l = {0, 0};
    BoughladderJudgement j = {0, 0};
    uint32_t d = 0;
    memset(buffer, 0xa5, sizeof buffer);
    memset(&p, 0, sizeof p);
    if (!strcmp(op, "fresh")) MARKED(d = boughladder_fresh(LENT));
    else if (!strcmp(op, "read")) MARKED(r = boughladder_read(LENT, n[0], n[1], n[2]));
    else if (!strcmp(op, "plain_read")) MARKED(r = boughladder_plain_read(items, i, n[0], n[1], n[2]));
    else if (!strcmp(op, "serve")) MARKED(r = boughladder_serve(LENT, n[0], n[1], n[2]));
    else if (!strcmp(op, "find")) MARKED(f = boughladder_find(LENT, n[0]));
    else if (!strcmp(op, "set")) MARKED(t = boughladder_set(LENT, n[0], (uint32_t)n[1], n[2], n[3]));
    else if (!strcmp(op, "set_cut")) MARKED(t = boughladder_set_cut(LENT, n[0], (uint32_t)n[1], n[2], n[3], n[4]));
    else if (!strcmp(op, "plan")) MARKED(p = boughladder_plan(LENT, n[0], (uint32_t)n[1], n[2], n[3]));
    else if (!strcmp(op, "step_move")) MARKED(d = boughladder_step_move(LENT, m, n[3], (uint32_t)n[4], n[5], n[6]));
    else if (!strcmp(op, "step_enter"))
        MARKED(d = boughladder_step_enter(LENT, n[0], n[1], n[2], (uint32_t)n[3], n[4], n[5]));
    else if (!strcmp(op, "delete")) MARKED(d = boughladder_delete(LENT, n[0]));
    else if (!strcmp(op, "delete_cut")) MARKED(d = boughladder_delete_cut(LENT, n[0], n[1]));
    else if (!strcmp(op, "evict")) MARKED(e = boughladder_evict(LENT, n[0]));
    else if (!strcmp(op, "evict_cut")) MARKED(e = boughladder_evict_cut(LENT, n[0], n[1]));
    else if (!strcmp(op, "list")) MARKED(l = boughladder_list(LENT, buffer, n[0]));
    else if (!strcmp(op, "judge")) MARKED(j = boughladder_judge(LENT));
    else exit(2);
    /* Only one of the replies is not 0. */
    a[0] = (uint64_t)d + r.refusal + f.refusal + t.refusal + p.refusal + e.refusal + l.refusal;
    a[1] = r.kind + f.kind + t.visits + p.count + e.victim + l.count + j.condition;
    a[2] = r.permission + f.place + t.moves + p.place + e.looked + j.at;
    a[3] = (uint64_t)r.left + p.slot + e.hand;
    for (int k = 0; k < 4; k++)
        a[4 + 3 * k] = p.moves[k].from, a[5 + 3 * k] = p.moves[k].tag, a[6 + 3 * k] = p.moves[k].to;
    put(a, 8, 16), put(slots, 4, 64), put(counters, 4, 8), put(items, 8, 256), put(buffer, 1, 64);
}

/* The numbers of a line; returns how many. */
static int numbers(const char *line, uint64_t *n) {
    int count = 0;
    char *end;
    for (; count < 7; count++, line = end) {
        n[count] = strtoull(line, &end, 10);
        if (end == line) break;
    }
    return count;
}

/* For every k from 0 to one more than the stores: the cut call, on the same memory. */
static void cuts(const char *op, uint64_t stores, uint64_t *n, int count) {
    static uint32_t slots_then[64], counters_then[8];
    static uint64_t items_then[256];
    memcpy(slots_then, slots, sizeof slots), memcpy(counters_then, counters, sizeof counters);
    memcpy(items_then, items, sizeof items);
    for (uint64_t k = 0; k <= stores + 1; k++) {
        n[count] = k;
        make(op, n);
        memcpy(slots, slots_then, sizeof slots), memcpy(counters, counters_then, sizeof counters);
        memcpy(items, items_then, sizeof items);
    }
}

int main(int words, char **word) {
    uint64_t n[8] = {0}, stack = (uint64_t)(uintptr_t)&n;
    char line[256], op[32];
    int at;
    FILE *file = words == 2 ? fopen(word[1], "r") : NULL;
    if (file == NULL) return 2;
    uint64_t where[10] = {(uint64_t)(uintptr_t)slots,  64,  (uint64_t)(uintptr_t)counters, 8,
                          (uint64_t)(uintptr_t)items,  256, (uint64_t)(uintptr_t)buffer,   64,
                          (uint64_t)(uintptr_t)&marker, stack};
    put(where, 8, 10);
    while (fgets(line, sizeof line, file) != NULL) {
        if (sscanf(line, "%31s%n", op, &at) < 1 || op[0] == '#' || !strcmp(op, "scenario")) continue;
        if (!strcmp(op, "lend")) {
            /* New lengths, and garbage in every word. */
            numbers(line + at, n);
            s = n[0], c = n[1], i = n[2];
            memset(slots, 0xa5, sizeof slots), memset(counters, 0xa5, sizeof counters);
            memset(items, 0xa5, sizeof items);
        } else if (!strcmp(op, "poke")) {
            /* A word from outside: its run, 0 to 2, its index and its value. */
            numbers(line + at, n);
            if (n[0] == 2) items[n[1]] = n[2];
            else (n[0] == 0 ? slots : counters)[n[1]] = (uint32_t)n[2];
        } else if (!strcmp(op, "cuts")) {
            /* cuts STORES CALL NUMBERS */
            unsigned stores;
            int more;
            if (sscanf(line + at, "%u %31s%n", &stores, op, &more) < 2) return 2;
            cuts(op, stores, n, numbers(line + at + more, n));
        } else {
            numbers(line + at, n);
            make(op, n);
        }
    }
    return 0;
}
