/* The tests of meters: an independent count over all instants that were accepted, runs, and states. */
#ifndef TEST_METER_H
#define TEST_METER_H

#include "common.h"

/* The meter under test, and the instants that it has accepted since `begin`, oldest first. */
extern rdram_meter meter;
extern uint32_t *accepted;
extern size_t instants;

/* A fresh meter, and room for so many instants. */
void begin(size_t most);

/* What a feed answers by document 02, given the accepted instants. */
uint32_t answer_to(uint32_t at);

/* How many of the 1,024 cycles are busy, by the accepted instants. */
uint32_t busy_cycles(void);

/*
 * Feeds an instant. Answers whether the answer is the right one, a refused feed changed nothing,
 * and the count and the share are those of the accepted instants.
 */
int feeds(uint32_t at);

/* A number below n, from a generator with a fixed seed. */
uint32_t below(uint32_t n);

/* runs.c */
void test_fresh(void);
void test_window(void);
void test_refusals(void);
void test_definition(void);

/* streams.c */
void test_streams(void);

/* states.c */
void test_bits(void);
void test_newest(void);
void test_random_states(void);

#endif
