/*
 * rdram_plan_all.h: many requests planned in one call. Part of rdram.h, which includes it.
 */
#ifndef RDRAM_PLAN_ALL_H
#define RDRAM_PLAN_ALL_H

#include "rdram_attributes.h"
#include <stddef.h>
#include <stdint.h>

#ifdef __cplusplus
extern "C" {
#endif

/*
 * number:  0 where every request was planned, or that of a refusal.
 * place:   how many requests were planned, which is the position, from 0, of the one that is refused.
 * records: how many records they made.
 */
typedef struct {
    uint32_t number;
    uint64_t place, records;
} rdram_planned_all;

/*
 * Plans requests, 24 bytes each, one after the other. It is equal to calls of rdram_plan made in
 * turn: each gets the planner that the last one left, and of the room what is after the records so
 * far. It stops before the first request that is refused.
 *
 * The records are written to the start of room, one after the other; the bytes of room after them
 * are unchanged. planner becomes the state after the last request that was planned: pass it to the
 * next call. No request at all is accepted, and makes no record. Settings and planner are tested
 * once. How many banks a close looked at is not handed back.
 *
 * Refusals of the call, in this order. No request is planned, place and records are 0, and no
 * buffer is changed:
 *    1  settings or planner: as in rdram_plan.
 *   13  requests_len is not a multiple of 24: pass whole requests.
 *
 * Any other number than 0 is a stop, and the call is not refused: planner and room have what the
 * requests before `place` made. Request `place` is refused with the number that rdram_plan answers,
 * in this order, and is never 1 or 13. Go on with the requests from there on, or from the next one:
 *    2 to 6, 15, 7  as in rdram_plan.
 *    8  room has fewer whole records left than request `place` needs: take the records out, and
 *       pass the requests from there on with a room that has RDRAM_REQUEST_RECORDS at least.
 */
rdram_planned_all rdram_plan_all(const uint8_t *RDRAM_RESTRICT settings, size_t settings_len,
                                 uint8_t *RDRAM_RESTRICT planner, size_t planner_len,
                                 const uint8_t *RDRAM_RESTRICT requests, size_t requests_len,
                                 uint8_t *RDRAM_RESTRICT room, size_t room_len)
    RDRAM_READS(1, 2) RDRAM_CHANGES(3, 4) RDRAM_READS(5, 6) RDRAM_WRITES(7, 8) RDRAM_ANSWER;

#ifdef __cplusplus
}
#endif

#endif
