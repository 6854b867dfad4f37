/* The tests of words, settings and logs, and the buffers that a log's calls are lent. */
#ifndef TEST_H
#define TEST_H

#include "common.h"

#define MOST 40 /* records in the longest list */

extern uint8_t list[MOST * RECORD + 64], list_before[MOST * RECORD + 64];
extern uint8_t block_log[4 * BLOCK + 64], block_log_before[4 * BLOCK + 64];

/* Set H with another size and device. */
void use(unsigned rows, unsigned columns, unsigned device);

/* A run of every command, D included, under device 5, rows 512, columns 128. */
void make_list(size_t records);

/* A log of `records` records at the start of block_log, and nothing of them in list. */
void make_log(size_t records);

/* Copies the buffers, for `unchanged`. The calls do so first. */
void remember(void);
int unchanged(void);
rdram_copied encode(size_t list_len, size_t log_len);
rdram_copied decode(size_t log_len, size_t list_len);

/* Refused with this number and place, and no buffer changed. */
int refused(rdram_copied answer, uint32_t number, uint64_t place);
int accepted(rdram_copied answer, uint64_t count);

/* words.c */
void test_worked_words(void);
void test_all_words(void);
void test_word_refusals(void);
void test_packet_refusals(void);

/* settings.c */
void test_settings(void);

/* logs.c */
void test_null(void);
void test_round_trip(void);
void test_31_records(void);
void test_room(void);
void test_any_instant(void);

/* log_refusals.c */
void test_lengths(void);
void test_flipped_bytes(void);
void test_block_fields(void);
void test_empty_blocks(void);
void test_block_order(void);
void test_bad_records(void);
void test_order(void);
void test_other_settings(void);

/* constants.c */
void test_constants(void);

#endif
