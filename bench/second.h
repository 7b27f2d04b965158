/*
 * second.h: another table by the order's rules in plain C, for the calls that a gate makes most: read, serve, set and delete;
 * a set in steps; and the auditor's plain read, and the judge of a dump.
 * It takes the table as one struct, so that a call has few arguments. That and the replies have boughladder.h's types.
 */
#ifndef SECOND_H
#define SECOND_H

#include "boughladder.h"

BoughladderReading second_read(const BoughladderTable *table, uint64_t animal, uint64_t limit, uint64_t now);
BoughladderReading second_serve(const BoughladderTable *table, uint64_t animal, uint64_t limit, uint64_t now);
BoughladderSetting second_set(const BoughladderTable *table, uint64_t animal, uint32_t permission, uint64_t issued, uint64_t now);
BoughladderPlan second_plan(const BoughladderTable *table, uint64_t animal, uint32_t permission, uint64_t issued, uint64_t now);
uint32_t second_step_move(const BoughladderTable *table, BoughladderMove move, uint64_t animal, uint32_t permission,
                          uint64_t issued, uint64_t now);
uint32_t second_step_enter(const BoughladderTable *table, size_t place, size_t slot, uint64_t animal, uint32_t permission,
                           uint64_t issued, uint64_t now);
uint32_t second_delete(const BoughladderTable *table, uint64_t animal);
BoughladderReading second_plain_read(const BoughladderTable *table, uint64_t animal, uint64_t limit, uint64_t now);
BoughladderJudgement second_judge(const BoughladderTable *table);

#endif
