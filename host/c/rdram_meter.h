/*
 * rdram_meter.h: how busy the data pins are. Part of rdram.h, which includes it.
 */
#ifndef RDRAM_METER_H
#define RDRAM_METER_H

#include "rdram_attributes.h"
#include <stdint.h>

#ifdef __cplusplus
extern "C" {
#endif

/*
 * Meter, 136 bytes: a struct that the caller holds, of sixteen words and a number of 64 bits, low
 * byte first. A program need not look inside; it may keep a copy, or its bytes, and go on from that.
 *    0  16 x 8  marks: bit i % 64 of word i / 64 is 1 where an instant was accepted i cycles before
 *               the newest one
 *  128  8       the newest instant that was accepted, 0 before any
 * Marks are at least 4 apart, bit 0 of word 0 is 1 unless newest is 0, and a mark i is of an
 * instant from 4 on: i + 4 is at most newest. A meter that is not so (refusal 1) comes from no feeds.
 */
typedef struct {
    uint64_t marks[16];
    uint64_t newest;
} rdram_meter;

#define RDRAM_METER_BYTES 136

/* The cycles that a meter looks back on. */
#define RDRAM_METER_CYCLES 1024

/* count: 0 to 1,024. */
typedef struct {
    uint32_t number, count;
} rdram_counted;

/* share: 0 to 1. */
typedef struct {
    uint32_t number;
    float share;
} rdram_shared;

/* A fresh meter: no instant was fed, and its count is 0. */
rdram_meter rdram_meter_fresh(void) RDRAM_ANSWER;

/*
 * Feeds a data instant: that of a D record, or the instant of an RD and tCAC. The meter becomes the
 * next one in place; nothing is allocated, and each feed takes about the same time. Answers 0, or
 * the number of a refusal, which leaves the meter as it was. Feed instants in rising order: each
 * dualoct fills the four cycles from its instant on.
 *
 * Refusals, in this order:
 *    1  no feeds from a fresh meter give this one: pass the meter that the last call left, or a
 *       fresh one.
 *    7  at is outside 4 to 1,000,000,000: the run is at its end. Go on with a fresh meter.
 *   16  overlap: at is less than 4 after the newest instant. Feed each dualoct once, in rising
 *       order.
 */
uint32_t rdram_meter_feed(rdram_meter *meter, uint32_t at) RDRAM_CHANGES_ONE(1) RDRAM_ANSWER;

/*
 * How many of the 1,024 cycles that end with the newest dualoct's fourth cycle carried data: a count
 * over all instants that the meter has ever accepted. Cycles before the first feed count as idle.
 *
 * Refusal 1: as in rdram_meter_feed.
 */
rdram_counted rdram_meter_count(rdram_meter meter) RDRAM_ANSWER;

/*
 * That count over 1,024, which a float has exactly.
 *
 * Refusal 1: as in rdram_meter_feed.
 */
rdram_shared rdram_meter_share(rdram_meter meter) RDRAM_ANSWER;

#ifdef __cplusplus
}
#endif

#endif
