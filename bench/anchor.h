/*
 * anchor.h: a second table by the order's rules, in plain C, to compare with the proved one.
 * It was written from the document, not from the Rattle code. The replies have boughladder.h's types, and each call has the arguments of its
 * namesake there, so that the two are called alike.
 */
#ifndef ANCHOR_H
#define ANCHOR_H

#include "boughladder.h"

#define ANCHOR_TABLE uint32_t *slots, size_t sl, uint32_t *counters, size_t cl, uint64_t *items, size_t il
#define ANCHOR_LENT const uint32_t *slots, size_t sl, const uint32_t *counters, size_t cl, const uint64_t *items, size_t il

uint32_t anchor_fresh(ANCHOR_TABLE);
BoughladderReading anchor_read(ANCHOR_LENT, uint64_t animal, uint64_t limit, uint64_t now);
BoughladderReading anchor_serve(const uint32_t *slots, size_t sl, const uint32_t *counters, size_t cl, uint64_t *items,
                                size_t il, uint64_t animal, uint64_t limit, uint64_t now);
BoughladderFinding anchor_find(ANCHOR_LENT, uint64_t animal);
BoughladderSetting anchor_set(ANCHOR_TABLE, uint64_t animal, uint32_t permission, uint64_t issued, uint64_t now);
BoughladderSetting anchor_set_cut(ANCHOR_TABLE, uint64_t animal, uint32_t permission, uint64_t issued, uint64_t now,
                                  uint64_t k);
BoughladderPlan anchor_plan(ANCHOR_LENT, uint64_t animal, uint32_t permission, uint64_t issued, uint64_t now);
uint32_t anchor_step_move(uint32_t *slots, size_t sl, uint32_t *counters, size_t cl, const uint64_t *items, size_t il,
                          BoughladderMove move, uint64_t animal, uint32_t permission, uint64_t issued, uint64_t now);
uint32_t anchor_step_enter(ANCHOR_TABLE, size_t place, size_t slot, uint64_t animal, uint32_t permission, uint64_t issued,
                           uint64_t now);
uint32_t anchor_delete(ANCHOR_TABLE, uint64_t animal);
uint32_t anchor_delete_cut(ANCHOR_TABLE, uint64_t animal, uint64_t k);
BoughladderEvicting anchor_evict(ANCHOR_TABLE, size_t hand);
BoughladderEvicting anchor_evict_cut(ANCHOR_TABLE, size_t hand, uint64_t k);
BoughladderListing anchor_list(ANCHOR_LENT, uint8_t *buffer, size_t buffer_length);
BoughladderReading anchor_plain_read(const uint64_t *items, size_t il, uint64_t animal, uint64_t limit, uint64_t now);
BoughladderJudgement anchor_judge(ANCHOR_LENT);

#endif
