/* The tests of device models: records, the buffers that a call is lent, and runs of calls. */
#ifndef TEST_MODEL_H
#define TEST_MODEL_H

#include "common.h"

#define MODEL RDRAM_MODEL_BYTES
#define ROWS 2    /* of set H */
#define COLUMNS 4 /* of set H */
#define STORE RDRAM_STORE_BYTES(ROWS, COLUMNS)
#define DUALOCT RDRAM_DUALOCT_BYTES
#define GUARD 64 /* bytes after what is lent of a buffer, to see that they stay */

extern uint8_t model[MODEL + GUARD], store[STORE + GUARD], store_before[STORE + GUARD];
extern uint8_t record[RECORD + GUARD], answer[DUALOCT + GUARD];
extern uint8_t wanted[STORE]; /* what the store must be */

/* Data of the D at an instant. */
void put_data(uint8_t *to, unsigned instant);

void use_record(const char *line);
uint8_t *dualoct(uint8_t *of, unsigned bank, unsigned row, unsigned column);

/* Data bytes come to the wanted store where the mask has a 1. */
void want_bytes(unsigned bank, unsigned row, unsigned column, unsigned mask, const uint8_t *data);

/* The store is as wanted. */
int store_right(void);

/* Set H, a store of a pattern and a fresh model, which is checked. */
void begin(void);

/* Copies the buffers; step and refuses do so first. */
void remember(void);
rdram_stepped step(size_t answer_len);
int is(rdram_stepped got, uint32_t number, uint32_t rule, uint32_t event, uint32_t bytes);

/* Refused with this number and rule, and no buffer changed. */
int refuses(uint32_t number, uint32_t rule, size_t answer_len);

/* No buffer changed. */
int unchanged(void);

/* What is not lent of the buffers stayed, and those that are only read. */
int guards_stay(void);
int store_stays(void);
int answer_stays(void);

/* The dualoct that an RD answered is that of the store before it. */
int read_right(void);

/* Checks each of some records, separated by commas; run does so after `begin`. */
void run_more(const char *text);
void run(const char *text);

/* runs.c */
void test_runs(void);
void test_closing_runs(void);
void test_rules(void);
void test_cores(void);
void test_places(void);
void test_masks(void);
void test_refresh_rows(void);

/* states.c */
void test_fresh(void);
void test_state(void);
void test_closing_states(void);
void test_refused_states(void);
void test_no_write(void);
void test_second_write(void);
void test_closing_flags(void);
void test_stored_instants(void);
void test_unused_bytes(void);
void test_states_by_core(void);

/* refusals.c */
void test_lengths(void);
void test_order(void);
void test_spare_bytes(void);
void test_null_pointers(void);

/* streams.c */
void test_whole_runs(void);

#endif
