/*
 * What the test programs share: counted checks, numbers in bytes, settings,
 * copies of lent buffers, words and records, logs, and bytes of states.
 */
#ifndef COMMON_H
#define COMMON_H

#include "rdram.h"
#include <inttypes.h>
#include <stdio.h>
#include <string.h>

#define FULL RDRAM_MASK_FULL
#define RECORD RDRAM_RECORD_BYTES
#define BLOCK RDRAM_BLOCK_BYTES
#define LAST 1000000000u /* the last instant */
#define COUNT(array) (sizeof(array) / sizeof(array)[0])

/* ---- Checks ---- */

/* Counts a check, and prints a line where it fails. */
void check(int ok, const char *format, ...);

/* Prints 'N passed, M failed'; answers the exit status. */
int report(void);

/* ---- Bytes ---- */

void put(uint8_t *to, uint64_t number, int bytes);
uint64_t get(const uint8_t *from, int bytes);

/* Fills a buffer with a pattern, to see what a call writes. */
void fill(uint8_t *bytes, size_t length);

/* A lent buffer and its copy from before the call. */
#define KEEP(buffer) memcpy(buffer##_before, buffer, sizeof buffer)
#define STAYS(buffer) (memcmp(buffer, buffer##_before, sizeof buffer) == 0)

/* ---- Settings ---- */

/* tRC tRAS tRP tPP tRR tRCD tRTR tRDP tRTP tCC tCAC tCWD tOFFP rows columns, device + 256 x core form */
extern const uint16_t SET_H[16];
extern uint8_t settings[RDRAM_SETTINGS_BYTES], settings_before[RDRAM_SETTINGS_BYTES];

void use_figures(const uint16_t *figures);
void use_figure(int figure, unsigned value);
void use_set_h(void);
#define T_OFFP 12 /* the place of tOFFP */

/* The core form, in the place of that of the settings. */
void use_core(unsigned core);
#define CORES 3

/* Set H with one number out of its range. */
void use_bad_figure(int figure);

/* ---- Words and records ---- */

uint64_t row_word(unsigned device, unsigned bank, unsigned command, unsigned row);

/* With M = 0 where the mask is full. */
uint64_t col_word(unsigned device, unsigned bank, unsigned command, unsigned column, unsigned mask);

void put_packet(uint8_t *record, uint32_t instant, int kind, uint64_t word);

/*
 * Writes the record of a line for device 0: instant, name, bank, row or column,
 * mask where M = 1; numbers at the end may be left out where they are 0.
 * Answers whether it is a D, whose data stay 0.
 */
int put_line(uint8_t *record, const char *line);

/* The text after the next comma, or null. */
const char *after_comma(const char *text);

/* ---- Logs ---- */

size_t blocks_for(size_t records);

/* Sets the check of a block. */
void seal(uint8_t *block);

/* Writes the log of a list; answers its length. */
size_t put_log(uint8_t *log, const uint8_t *list, size_t records);

/* ---- States ---- */

typedef struct {
    int offset, bytes;
    uint64_t value;
} field;

/* An instant as a state has it: less 3. */
#define AT(offset, instant) {offset, 4, (instant) - 3}

/* Stored instants in range, the first for never, and out of it: with 3 added some are small in 32 bits. */
extern const uint32_t IN_RANGE[6], OUT_OF_RANGE[10];

/* The offsets of the last instants that planner and model have in common, of banks and then of the channel. */
#define LAST_INSTANTS 166
int instant_offset(int n);

/* Offsets and numbers of the bytes that they have in common and no field uses. */
#define UNUSED {730, 6}

/* The state has these fields, and 0 in all others. */
int state_is(const uint8_t *state, size_t length, const field *fields, size_t count);

/* A fresh state of another length than the right one is refused, and nothing written. */
int other_lengths_refused(uint32_t (*fresh)(uint8_t *, size_t), uint8_t *state, size_t size, size_t right);

#endif
