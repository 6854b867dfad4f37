/*
 * rdram_index.h: which blocks of a log touch a bank. Part of rdram.h, which includes it.
 */
#ifndef RDRAM_INDEX_H
#define RDRAM_INDEX_H

#include "rdram_attributes.h"
#include <stddef.h>
#include <stdint.h>

#ifdef __cplusplus
extern "C" {
#endif

/*
 * Index: one 32-bit word for each block of a log, low byte first, in the order of the blocks. Bit b
 * is 1 where a ROW packet, RD, WR, RDA or WRA of the block names bank b; NOCOP and D set nothing. The
 * index of an empty log is empty.
 */
#define RDRAM_INDEX_WORD_BYTES 4

/* number: 0, or a refusal's with its rule and place; count: how many words or block numbers. */
typedef struct {
    uint32_t number, rule;
    uint64_t place, count;
} rdram_indexed;

/*
 * Makes the index of a log at the start of a buffer; count is the number of its words. Every other
 * byte of the buffer stays.
 *
 * Refusals, in this order; a refused call changes nothing:
 *    1  settings: a figure is outside its range.
 *   13  length: the log is not of whole blocks.
 *   12  block: place is the first bad block, from 0.
 *   10  word: place is the first bad record, from 0.
 *    8  full: the buffer has fewer words than the log has blocks.
 */
rdram_indexed rdram_index_make(const uint8_t *RDRAM_RESTRICT settings, size_t settings_len,
                               const uint8_t *RDRAM_RESTRICT log, size_t log_len,
                               uint8_t *RDRAM_RESTRICT index, size_t index_len)
    RDRAM_READS(1, 2) RDRAM_READS(3, 4) RDRAM_WRITES(5, 6) RDRAM_ANSWER;

/*
 * The same where the first `kept` words of the buffer are in place already: they are compared and
 * stay, and only the words after them are written. For a log that has grown, pass the number of
 * full blocks that it had: adding a block adds one word, and filling up a short last block changes
 * the word of that block alone.
 *
 * Refusals: as in rdram_index_make, and after 10
 *   14  index: place is the first of the kept words that is wrong, missing or surplus, from 0. Make
 *       the index afresh.
 */
rdram_indexed rdram_index_add(const uint8_t *RDRAM_RESTRICT settings, size_t settings_len,
                              const uint8_t *RDRAM_RESTRICT log, size_t log_len, size_t kept,
                              uint8_t *RDRAM_RESTRICT index, size_t index_len)
    RDRAM_READS(1, 2) RDRAM_READS(3, 4) RDRAM_ANSWER;

/*
 * Lists the numbers of the blocks that touch a bank at the start of a buffer, four bytes each, low
 * byte first, in rising order; count is how many there are. The list equals a scan of the log.
 *
 * Refusals, in this order; a refused call changes nothing:
 *    1  settings.
 *   13  length: the log is not of whole blocks, or the index not of whole words.
 *    4  bank: above 31.
 *   12  block, 10 word: as in rdram_index_make.
 *   14  index: it differs from its log; place is the first word wrong, missing or surplus, from 0.
 *    8  full: the buffer has room for fewer numbers.
 */
rdram_indexed rdram_index_query(const uint8_t *RDRAM_RESTRICT settings, size_t settings_len,
                                const uint8_t *RDRAM_RESTRICT log, size_t log_len,
                                const uint8_t *RDRAM_RESTRICT index, size_t index_len, uint32_t bank,
                                uint8_t *RDRAM_RESTRICT out, size_t out_len)
    RDRAM_READS(1, 2) RDRAM_READS(3, 4) RDRAM_READS(5, 6) RDRAM_WRITES(8, 9) RDRAM_ANSWER;

/*
 * Judges a log with its index by every rule; count is the number of words where both pass.
 *
 * Refusals, in this order: 1, 13 (log, then index), 12, 10, 14 as above, and then
 *   11  rule: rule is the lowest rule that record `place` breaks, the first that breaks one.
 */
rdram_indexed rdram_index_check(const uint8_t *RDRAM_RESTRICT settings, size_t settings_len,
                                const uint8_t *RDRAM_RESTRICT log, size_t log_len,
                                const uint8_t *RDRAM_RESTRICT index, size_t index_len)
    RDRAM_READS(1, 2) RDRAM_READS(3, 4) RDRAM_READS(5, 6) RDRAM_ANSWER;

/* How many banks a block names: the ones of its word. */
uint32_t rdram_index_banks(uint32_t word) RDRAM_ANSWER;

#ifdef __cplusplus
}
#endif

#endif
