/* The tests of rdram_check, rdram_check_log and rdram_shortest, and the list and log that they judge. */
#ifndef TEST_CHECK_H
#define TEST_CHECK_H

#include "common.h"

#define MOST 40 /* records in the longest list */

extern uint8_t list[MOST * RECORD + 64], block_log[3 * BLOCK];
extern size_t records;

/* Adds the record of a line to the list. */
void add(const char *line);

/* A list under set H; records are separated by commas. */
void use_list(const char *text);

/* Writes the log of the list; answers its length. */
size_t make_log(void);

/* Copies the buffers; `is` and those below it look whether they stayed. */
void remember(void);
int is(rdram_judged answer, uint32_t number, uint32_t rule, uint64_t place);
int list_is(size_t length, uint32_t number, uint32_t rule, uint64_t place);
int log_is(size_t length, uint32_t number, uint32_t rule, uint64_t place);

/* The same answer for the list and for its log. */
int both_are(uint32_t number, uint32_t rule, uint64_t place);

/* rules.c */
void test_runs(void);
void test_passing_lists(void);
void test_single_rules(void);
void test_several_rules(void);
void test_timings(void);
void test_cores(void);

/* refusals.c */
void test_empty(void);
void test_lengths(void);
void test_settings(void);
void test_word_before_rule(void);
void test_31_records(void);

/* shortest.c */
void test_shortest_lists(void);
void test_shortest_by_all_starts(void);

#endif
