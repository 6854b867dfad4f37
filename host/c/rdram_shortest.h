/*
 * rdram_shortest.h: the shortest run of a list that still breaks its rule. Part of rdram.h, which
 * includes it.
 */
#ifndef RDRAM_SHORTEST_H
#define RDRAM_SHORTEST_H

#include "rdram_attributes.h"
#include <stddef.h>
#include <stdint.h>

#ifdef __cplusplus
extern "C" {
#endif

/* number, rule and place: as of rdram_check; start: the record from which the run starts, or 0. */
typedef struct {
    uint32_t number, rule;
    uint64_t place, start;
} rdram_shortest_run;

/*
 * Judges a list as rdram_check does and, where record `place` is the first that breaks a rule, finds
 * the shortest run of records that ends there and says the same: rdram_check of the records from
 * `start` to `place` alone answers 11 with the same rule, at the last of them (place - start). No
 * later start has this. The list up to `place` has it, so there is always such a run. Its bytes are
 * the 32 * (place - start + 1) from list + 32 * start on: rdram_log_encode makes a log of them.
 *
 * Number 0: the list passes, and start is 0. No buffer is written.
 *
 * Refusals, in this order; start is 0 but for 11:
 *    1  settings: correct the settings bytes.
 *   13  list_len is not a multiple of 32: pass whole records.
 *   10  as in rdram_check.
 *   11  rule and place as in rdram_check, and start. The run is what is to be looked at: the records
 *       before it do nothing for the breach.
 *
 * It takes the time of rdram_check for the list and, for a run of k records, that of at most
 * k * (k + 1) / 2 records more, by k and not by the list. Where the run from a record is refused before
 * `place`, so is every run from a record before it up to the next ACT or REFA: these are passed over.
 */
rdram_shortest_run rdram_shortest(const uint8_t *RDRAM_RESTRICT settings, size_t settings_len,
                                  const uint8_t *RDRAM_RESTRICT list, size_t list_len)
    RDRAM_READS(1, 2) RDRAM_READS(3, 4) RDRAM_ANSWER;

#ifdef __cplusplus
}
#endif

#endif
