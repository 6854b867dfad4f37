/*
 * rdram_answers.h: the answers that several calls have in common. Part of rdram.h, which includes it.
 */
#ifndef RDRAM_ANSWERS_H
#define RDRAM_ANSWERS_H

#include <stdint.h>

/* Of a call that fills a lent buffer: number, the place that it names, and how many blocks or records were written. */
typedef struct {
    uint32_t number;
    uint64_t place, count;
} rdram_copied;

/* Of a call that judges a list: number, and the rule and the place that it names. */
typedef struct {
    uint32_t number, rule;
    uint64_t place;
} rdram_judged;

#endif
