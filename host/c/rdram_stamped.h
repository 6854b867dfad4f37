/*
 * rdram_stamped.h: logs that carry their settings. Part of rdram.h, which includes it.
 */
#ifndef RDRAM_STAMPED_H
#define RDRAM_STAMPED_H

#include "rdram_answers.h"
#include "rdram_attributes.h"
#include "rdram_index.h"
#include <stddef.h>
#include <stdint.h>

#ifdef __cplusplus
extern "C" {
#endif

/*
 * A stamped block has 512 bytes as every block: 14 records (used 1 to 14), then 32 bytes of stamp,
 * which are the settings record (rdram_settings.h), and from byte 480 on number, count, zeros and
 * check as in rdram.h. Every block of a log has the same stamp. An empty log has no block and no
 * stamp; it passes every call here.
 *
 * The calls that read such a log take no settings: those of its stamps hold. Common refusal:
 *   17  stamp: place is the first block whose settings are out of range or differ from block 0's.
 *       If block 0 was damaged within the ranges, place is 1. It comes after 12 and before 10.
 */
#define RDRAM_STAMPED_RECORDS 14
#define RDRAM_STAMP_OFFSET 448

/*
 * Packs a list of records into a stamped log; the settings are written to every block. A list of n
 * records needs n / 14 blocks, rounded up. Timing rules are not tested. Otherwise as
 * rdram_log_encode (rdram.h).
 *
 * Refusals, in this order: 1, 13, 10, 8 as in rdram_log_encode.
 */
rdram_copied rdram_stamped_encode(const uint8_t *RDRAM_RESTRICT settings, size_t settings_len,
                                  const uint8_t *RDRAM_RESTRICT list, size_t list_len,
                                  uint8_t *RDRAM_RESTRICT log, size_t log_len)
    RDRAM_READS(1, 2) RDRAM_READS(3, 4) RDRAM_WRITES(5, 6) RDRAM_ANSWER;

/*
 * Unpacks a stamped log into a list of records. Timing rules are not tested. Otherwise as
 * rdram_log_decode.
 *
 * Refusals, in this order: 13, 12, 17, 10, 8.
 */
rdram_copied rdram_stamped_decode(const uint8_t *RDRAM_RESTRICT log, size_t log_len,
                                  uint8_t *RDRAM_RESTRICT list, size_t list_len)
    RDRAM_READS(1, 2) RDRAM_WRITES(3, 4) RDRAM_ANSWER;

/*
 * Tests whether the list that a stamped log keeps obeys the rules under the settings that it
 * carries. Number 0: it passes. No buffer is written.
 *
 * Refusals, in this order: 13, 12, 17, 10, and then
 *   11  rule: rule is the lowest rule that record `place` breaks, the first that breaks one.
 */
rdram_judged rdram_stamped_check(const uint8_t *log, size_t log_len) RDRAM_READS(1, 2) RDRAM_ANSWER;

/*
 * Makes the index of a stamped log at the start of a buffer of which the first `kept` words are in
 * place already (0: none): as rdram_index_add.
 *
 * Refusals, in this order: 13, 12, 17, 10, 14 of the kept words, 8.
 */
rdram_indexed rdram_stamped_index(const uint8_t *RDRAM_RESTRICT log, size_t log_len, size_t kept,
                                  uint8_t *RDRAM_RESTRICT index, size_t index_len)
    RDRAM_READS(1, 2) RDRAM_ANSWER;

/*
 * Lists the numbers of the blocks of a stamped log that touch a bank: as rdram_index_query.
 *
 * Refusals, in this order: 13 (log, then index), 4, 12, 17, 10, 14, 8.
 */
rdram_indexed rdram_stamped_query(const uint8_t *RDRAM_RESTRICT log, size_t log_len,
                                  const uint8_t *RDRAM_RESTRICT index, size_t index_len, uint32_t bank,
                                  uint8_t *RDRAM_RESTRICT out, size_t out_len)
    RDRAM_READS(1, 2) RDRAM_READS(3, 4) RDRAM_WRITES(6, 7) RDRAM_ANSWER;

/*
 * Moves a log of blocks of 15 records to a stamped one, with these settings, at the start of out;
 * count is the number of its blocks, and the bytes of out after them are unchanged. Timing rules are
 * not tested. rdram_log_unstamp of the result gives the same log back.
 *
 * Refusals, in this order:
 *    1  settings: correct the settings bytes.
 *   13  log_len is not a multiple of 512.
 *   12  block, 10 word: as in rdram_log_decode.
 *    8  out has fewer whole blocks than needed, or a block number would pass 32 bits.
 */
rdram_copied rdram_log_stamp(const uint8_t *RDRAM_RESTRICT settings, size_t settings_len,
                             const uint8_t *RDRAM_RESTRICT log, size_t log_len,
                             uint8_t *RDRAM_RESTRICT out, size_t out_len)
    RDRAM_READS(1, 2) RDRAM_READS(3, 4) RDRAM_WRITES(5, 6) RDRAM_ANSWER;

/*
 * Moves a stamped log to one of blocks of 15 records at the start of out; the settings are lost.
 * rdram_log_stamp of the result with the same settings gives the same log back.
 *
 * Refusals, in this order: 13, 12, 17, 10, 8.
 */
rdram_copied rdram_log_unstamp(const uint8_t *RDRAM_RESTRICT log, size_t log_len,
                               uint8_t *RDRAM_RESTRICT out, size_t out_len)
    RDRAM_READS(1, 2) RDRAM_WRITES(3, 4) RDRAM_ANSWER;

#ifdef __cplusplus
}
#endif

#endif
