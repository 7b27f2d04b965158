/*
 * How much stack a call takes: each call runs on a painted stack of its own, on tables of many sizes and loads, and the
 * most that lost its paint is told. Status 1 if it is more than the header says. Run by `examples/c/run stack`.
 */
#define _XOPEN_SOURCE 600
#include <stdio.h>
#include <stdlib.h>
#include <string.h>
#include <ucontext.h>

#include "boughladder.h"

enum { STACK = 1 << 16, PAINT = 0x5a, SET = 3300, OTHER = 400 };

static uint32_t slots[BOUGHLADDER_SLOTS(64)], counters[8];
static uint64_t items[BOUGHLADDER_ITEMS(260)];
static uint8_t buffer[BOUGHLADDER_LIST_BYTES(260)];
static BoughladderTable table = BOUGHLADDER_TABLE(slots, counters, items);
static uint64_t animal, k;
static size_t hand;
static BoughladderPlan planned; /* for that animal; no part of the stack */
static volatile uint64_t told;  /* so that no call is left out */

static void none(void) { told = 0; }
static void fresh(void) { told = boughladder_table_fresh(&table); }
static void read_one(void) { told = boughladder_table_read(&table, animal, 720, 100).kind; }
static void serve(void) { told = boughladder_table_serve(&table, animal, 720, 100).kind; }
static void find(void) { told = boughladder_table_find(&table, animal).place; }
static void set(void) { told = boughladder_table_set(&table, animal, 1, 100, 100).visits; }
static void set_cut(void) { told = boughladder_table_set_cut(&table, animal, 1, 100, 100, k).visits; }
static void plan(void) { planned = boughladder_table_plan(&table, animal, 1, 100, 100); }
static void step_move(void) { told = boughladder_table_step_move(&table, planned.moves[0], animal, 1, 100, 100); }
static void step_enter(void) {
    told = boughladder_table_step_enter(&table, planned.place, planned.slot, animal, 1, 100, 100);
}
static void delete_one(void) { told = boughladder_table_delete(&table, animal); }
static void delete_cut(void) { told = boughladder_table_delete_cut(&table, animal, k); }
static void evict(void) { told = boughladder_table_evict(&table, hand).hand; }
static void evict_cut(void) { told = boughladder_table_evict_cut(&table, hand, k).hand; }
static void list(void) { told = boughladder_table_list(&table, buffer, sizeof buffer).count; }
static void plain_read(void) { told = boughladder_table_plain_read(&table, animal, 720, 100).kind; }
static void judge(void) { told = boughladder_table_judge(&table).condition; }

static struct {
    const char *name;
    void (*call)(void);
    size_t may, took;
} calls[] = {{"fresh", fresh, OTHER, 0},         {"read", read_one, OTHER, 0},     {"serve", serve, OTHER, 0},
             {"find", find, OTHER, 0},           {"judge", judge, OTHER, 0},       {"set", set, SET, 0},
             {"set_cut", set_cut, SET, 0},       {"delete", delete_one, OTHER, 0}, {"delete_cut", delete_cut, OTHER, 0},
             {"evict", evict, OTHER, 0},         {"evict_cut", evict_cut, OTHER, 0}, {"list", list, OTHER, 0},
             {"plain_read", plain_read, OTHER, 0}, {"plan", plan, SET, 0}, {"step_move", step_move, OTHER, 0},
             {"step_enter", step_enter, OTHER, 0}};
enum { CALLS = sizeof calls / sizeof calls[0] };

static ucontext_t here, there;
static unsigned char *stack;

/* The bytes of a painted stack that a call used. The stack grows down. */
static size_t used(void (*call)(void)) {
    size_t left = 0;
    memset(stack, PAINT, STACK);
    if (getcontext(&there) != 0) abort();
    there.uc_stack.ss_sp = stack, there.uc_stack.ss_size = STACK, there.uc_link = &here;
    makecontext(&there, call, 0);
    if (swapcontext(&here, &there) != 0) abort();
    while (left < STACK && stack[left] == PAINT) left++;
    return STACK - left;
}

int main(void) {
    size_t empty, n, round;
    int wrong = 0;
    stack = (unsigned char *)malloc(STACK);
    if (stack == NULL) return 1;
    empty = used(none);
    srand(1);
    for (round = 0; round < 400; round++) {
        /* A table of 2 to 64 buckets, filled to some load or until a new animal finds no room. */
        uint64_t cows = (uint64_t)rand() % 260;
        table.slots_length = (size_t)8 << rand() % 6;
        table.counters_length = 1 + (size_t)rand() % 8;
        if (boughladder_table_fresh(&table) != 0) return 1;
        for (; cows > 0; cows--)
            if (boughladder_table_set(&table, 1 + (uint64_t)rand(), 1, 100, 100).refusal != 0) break;
        for (n = 1; n < CALLS; n++) {
            size_t took;
            animal = rand() % 3 == 0 ? (uint64_t)rand() : items[4 * ((size_t)rand() % 100)];
            k = (uint64_t)rand() % 12, hand = (size_t)rand() % 260;
            plan();
            took = used(calls[n].call) - empty;
            if (took > calls[n].took) calls[n].took = took;
        }
        n = used(fresh) - empty;
        if (n > calls[0].took) calls[0].took = n;
    }
    for (n = 0; n < CALLS; n++) {
        printf("%s%s %u", n == 0 ? "stack: " : ", ", calls[n].name, (unsigned)calls[n].took);
        wrong |= calls[n].took > calls[n].may;
    }
    printf(" bytes: %s\n", wrong ? "more than the header says" : "as the header says");
    return wrong;
}
