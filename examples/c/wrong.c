/* Uses of the header that a compiler must not let through with -Werror: WRONG says which, and 0 is a right one. */
#include "boughladder.h"

static uint32_t slots[BOUGHLADDER_SLOTS(64)], counters[16], more[65];
static uint64_t items[BOUGHLADDER_ITEMS(200)];
static int32_t signed_words[16];
BoughladderTable table = BOUGHLADDER_TABLE(slots, counters, items);
static BoughladderPlan plan;
void print(uint64_t minutes);
uint16_t wrong(uint32_t *pointer, const BoughladderTable *read_only, uint64_t limit);
uint16_t wrong(uint32_t *pointer, const BoughladderTable *read_only, uint64_t limit) {
    uint16_t answer = 0;
#if WRONG == 0
    BoughladderTable other = BOUGHLADDER_TABLE(slots, counters, items);
    BOUGHLADDER_CHECK_SHAPE(64, 16, 200);
    answer = boughladder_table_read(&other, 1, 2, 3).kind;
    answer = (uint16_t)(answer + boughladder_table_plain_read(read_only, 1, 2, 3).kind);
    answer = (uint16_t)(answer + boughladder_plain_read(items, 800, 1, 2, 3).kind);
    answer = (uint16_t)(answer + boughladder_table_set(&table, 1, 2, 3, 4).refusal);
    answer = (uint16_t)(answer + boughladder_table_set_cut(&table, 1, 2, 3, 4, BOUGHLADDER_ALL_STORES).refusal);
    answer = (uint16_t)(answer + boughladder_set(slots, 256, counters, 16, items, 800, 1, 2, 3, 4).refusal);
    answer = (uint16_t)(answer + boughladder_set_cut(slots, 256, counters, 16, items, 800, 1, 2, 3, 4, 5).refusal);
    answer = (uint16_t)(answer + boughladder_table_read(&table, 1, 2, BOUGHLADDER_NO_MINUTE).refusal);
    answer = (uint16_t)(answer + (items[2] == BOUGHLADDER_RETIRED_MARK));
    answer = (uint16_t)(answer + (boughladder_table_read(&table, 1, limit, 3).left == BOUGHLADDER_LEAST_LEFT));
    answer = (uint16_t)(answer + boughladder_table_judge(read_only).condition);
    answer = (uint16_t)(answer + boughladder_judge(slots, 256, counters, 16, items, 800).at);
    plan = boughladder_table_plan(read_only, 1, 2, 3, 4);
    plan = boughladder_plan(slots, 256, counters, 16, items, 800, 1, 2, 3, 4);
    answer = (uint16_t)(answer + boughladder_table_step_move(&table, plan.moves[0], 1, 2, 3, 4));
    answer = (uint16_t)(answer +
                        boughladder_step_move(slots, 256, counters, 16, items, 800, plan.moves[0], 1, 2, 3, 4));
    answer = (uint16_t)(answer + boughladder_table_step_enter(&table, plan.place, plan.slot, 1, 2, 3, 4));
    answer = (uint16_t)(answer + boughladder_step_enter(slots, 256, counters, 16, items, 800, 5, 6, 1, 2, 3, 4));
#elif WRONG == 1 /* slots and counters swapped */
    BoughladderTable other = BOUGHLADDER_TABLE(counters, slots, items);
#elif WRONG == 2 /* a pointer, whose length nobody knows */
    BoughladderTable other = BOUGHLADDER_TABLE(slots, pointer, items);
#elif WRONG == 3 /* words of another type */
    BoughladderTable other = BOUGHLADDER_TABLE(slots, signed_words, items);
#elif WRONG == 4 /* slots that are no 4N words */
    BoughladderTable other = BOUGHLADDER_TABLE(more, counters, items);
#elif WRONG == 5 /* more counters than buckets */
    BoughladderTable other = BOUGHLADDER_TABLE(slots, more, items);
#elif WRONG == 6 /* three buckets */
    BOUGHLADDER_CHECK_SHAPE(3, 1, 200);
#elif WRONG == 7 /* a refusal that nobody looks at */
    boughladder_table_set(&table, 1, 2, 3, 4);
#elif WRONG == 8 /* the same with a call over the runs */
    boughladder_delete(slots, 256, counters, 16, items, 800, 1);
#elif WRONG == 9 /* a task that may only read serves */
    answer = boughladder_table_serve(read_only, 1, 2, 3).kind;
#elif WRONG == 10 /* a caller of 1.0.0, without the issue minute; over the runs it compiles, and is refused */
    answer = (uint16_t)boughladder_table_set(&table, 1, 2, 4).refusal;
#elif WRONG == 11 /* the same with a standing permission */
    answer = (uint16_t)boughladder_table_set_standing(&table, 1, 2).refusal;
#elif WRONG == 12 /* the same with the cut form */
    answer = (uint16_t)boughladder_table_set_cut(&table, 1, 2, 4, 5).refusal;
#elif WRONG == 13 /* a plain read of the slots */
    answer = boughladder_plain_read(slots, 256, 1, 2, 3).kind;
#elif WRONG == 14 /* a plain read that is lent the whole table */
    answer = boughladder_plain_read(slots, 256, counters, 16, items, 800, 1, 2, 3).kind;
#elif WRONG == 15 /* its answer that nobody looks at */
    boughladder_plain_read(items, 800, 1, 2, 3);
#elif WRONG == 16 /* the same over a table */
    boughladder_table_plain_read(&table, 1, 2, 3);
#elif WRONG == 17 /* a caller of 2.x, which compares an age */
    answer = boughladder_table_read(&table, 1, 720, 3).age <= limit;
#elif WRONG == 18 /* the same with a call over the runs, and it prints it */
    print(boughladder_plain_read(items, 800, 1, 720, 3).age);
#elif WRONG == 19 /* only the name was changed: a negative number is larger than any limit */
    answer = boughladder_table_serve(&table, 1, 720, 3).left <= limit;
#elif WRONG == 20 /* a judgement that nobody looks at */
    boughladder_judge(slots, 256, counters, 16, items, 800);
#elif WRONG == 21 /* the same over a table */
    boughladder_table_judge(&table);
#elif WRONG == 22 /* slots and items swapped; of slots and counters no compiler can tell it */
    answer = (uint16_t)boughladder_judge(items, 800, counters, 16, slots, 256).condition;
#elif WRONG == 23 /* judge refuses nothing: a judgement whose refusal is asked for */
    answer = (uint16_t)boughladder_table_judge(&table).refusal;
#elif WRONG == 24 /* a caller of 3.x, which sets a standing permission */
    answer = (uint16_t)boughladder_table_set_standing(&table, 1, 2, 3, 4).refusal;
#elif WRONG == 25 /* the same with the cut form */
    answer = (uint16_t)boughladder_table_set_standing_cut(&table, 1, 2, 3, 4, 5).refusal;
#elif WRONG == 26 /* the same with a call over the runs, which says that it is not standing */
    answer = (uint16_t)boughladder_set(slots, 256, counters, 16, items, 800, 1, 2, 3, 4, 0).refusal;
#elif WRONG == 27 /* the same with its cut form */
    answer = (uint16_t)boughladder_set_cut(slots, 256, counters, 16, items, 800, 1, 2, 3, 4, 0, 5).refusal;
#elif WRONG == 28 /* a caller of 3.x, which looks for standing stamps in a list */
    answer = items[2] == BOUGHLADDER_STANDING;
#elif WRONG == 29 /* a plan that nobody looks at */
    boughladder_table_plan(&table, 1, 2, 3, 4);
#elif WRONG == 30 /* the same with a call over the runs */
    boughladder_plan(slots, 256, counters, 16, items, 800, 1, 2, 3, 4);
#elif WRONG == 31 /* a move that may be stale by now, and nobody looks */
    boughladder_table_step_move(&table, plan.moves[0], 1, 2, 3, 4);
#elif WRONG == 32 /* the same with a call over the runs */
    boughladder_step_move(slots, 256, counters, 16, items, 800, plan.moves[0], 1, 2, 3, 4);
#elif WRONG == 33 /* a final store, likewise */
    boughladder_table_step_enter(&table, plan.place, plan.slot, 1, 2, 3, 4);
#elif WRONG == 34 /* the same with a call over the runs */
    boughladder_step_enter(slots, 256, counters, 16, items, 800, 5, 6, 1, 2, 3, 4);
#elif WRONG == 35 /* a task that may only read makes a move */
    answer = (uint16_t)boughladder_table_step_move(read_only, plan.moves[0], 1, 2, 3, 4);
#elif WRONG == 36 /* the same with the final store */
    answer = (uint16_t)boughladder_table_step_enter(read_only, plan.place, plan.slot, 1, 2, 3, 4);
#elif WRONG == 37 /* the whole plan where one move is wanted */
    answer = (uint16_t)boughladder_table_step_move(&table, plan, 1, 2, 3, 4);
#elif WRONG == 38 /* all its moves */
    answer = (uint16_t)boughladder_table_step_move(&table, plan.moves, 1, 2, 3, 4);
#elif WRONG == 39 /* a move by its numbers */
    answer = (uint16_t)boughladder_table_step_move(&table, 5, 62, 6, 1, 2, 3, 4);
#elif WRONG == 40 /* a move without set's inputs */
    answer = (uint16_t)boughladder_table_step_move(&table, plan.moves[0]);
#elif WRONG == 41 /* a final store that leaves place and slot out */
    answer = (uint16_t)boughladder_table_step_enter(&table, 1, 2, 3, 4);
#elif WRONG == 42 /* that takes them from the plan */
    answer = (uint16_t)boughladder_table_step_enter(&table, plan, 1, 2, 3, 4);
#elif WRONG == 43 /* that leaves the slot out */
    answer = (uint16_t)boughladder_step_enter(slots, 256, counters, 16, items, 800, 5, 1, 2, 3, 4);
#elif WRONG == 44 /* a plan tells no visits */
    answer = (uint16_t)boughladder_table_plan(&table, 1, 2, 3, 4).visits;
#elif WRONG == 45 /* a step answers its refusal number, and no setting */
    answer = (uint16_t)boughladder_table_step_enter(&table, plan.place, plan.slot, 1, 2, 3, 4).refusal;
#endif
#if WRONG >= 1 && WRONG <= 5
    answer = (uint16_t)other.slots_length;
#endif
    (void)more, (void)signed_words, (void)pointer, (void)read_only, (void)limit, (void)plan;
    return answer;
}
