/*
 * rdram_page.h: a page of the channel as text. Part of rdram.h, which includes it.
 */
#ifndef RDRAM_PAGE_H
#define RDRAM_PAGE_H

#include "rdram_answers.h"
#include "rdram_attributes.h"
#include <stddef.h>
#include <stdint.h>

#ifdef __cplusplus
extern "C" {
#endif

/*
 * Page, 292 bytes: 64 cycles from a given one on, in four lines of 72 characters and a line feed. A
 * line has its name, ROW, COL, DQ or none, filled with spaces to eight, then one character a cycle:
 *   ROW  A ACT, P PRER, F REFA, E REFP
 *   COL  R RD or RDA, W WR or WRA, N NOCOP
 *   DQ   D the data of a D record, Q the data that an RD or RDA brings
 *        the scale: '|' where the cycle is a multiple of 8, else a space
 * A packet at instant t stands at the cycles t - 4 to t - 1, data at four cycles from their instant
 * on. What the page's edge cuts shows those of its cycles that are inside. An idle cycle is a dot. A
 * WR whose D is not in the list shows no data. No zero byte ends a page.
 */
#define RDRAM_PAGE_CYCLES 64
#define RDRAM_PAGE_LINE_BYTES 73
#define RDRAM_PAGE_BYTES (4 * RDRAM_PAGE_LINE_BYTES)

/*
 * Draws the page of a list from cycle `start` on at the start of room; the bytes of room after its 292
 * are unchanged. Where the list passes rdram_check no two of its packets, and no two of its data,
 * share a cycle. Records that mark no cycle of the page change nothing in it.
 *
 * Refusals, in this order; a refused call changes nothing:
 *    1  settings: correct the settings bytes.
 *   13  list_len is not a multiple of 32: pass whole records.
 *    7  start is above 1,000,000,000: pass a lower one. 0 to 3 are allowed.
 *   10, 11  as in rdram_check: only a list that passes is drawn.
 *    8  room_len is below 292: pass RDRAM_PAGE_BYTES bytes.
 */
rdram_judged rdram_page(const uint8_t *RDRAM_RESTRICT settings, size_t settings_len,
                        const uint8_t *RDRAM_RESTRICT list, size_t list_len, uint32_t start,
                        uint8_t *RDRAM_RESTRICT room, size_t room_len)
    RDRAM_READS(1, 2) RDRAM_READS(3, 4) RDRAM_WRITES(6, 7) RDRAM_ANSWER;

#ifdef __cplusplus
}
#endif

#endif
