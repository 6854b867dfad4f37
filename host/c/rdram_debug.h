/*
 * rdram_debug.h: with RDRAM_DEBUG defined, each call that is lent several buffers first asserts that no
 * two of them overlap. Part of rdram.h, which then includes it. It needs C99 or C++.
 *
 * A board without assert.h defines RDRAM_ASSERT(condition) before.
 */
#ifndef RDRAM_DEBUG_H
#define RDRAM_DEBUG_H

#include "rdram.h"

#ifndef RDRAM_ASSERT
#include <assert.h>
#define RDRAM_ASSERT(condition) assert(condition)
#endif

typedef struct {
    const uint8_t *bytes;
    size_t length;
} rdram_lent;

static inline int rdram_overlap(rdram_lent a, rdram_lent b)
{
    uintptr_t from_a = (uintptr_t)a.bytes, from_b = (uintptr_t)b.bytes;
    return a.length > 0 && b.length > 0 && (from_a <= from_b ? from_b - from_a < a.length : from_a - from_b < b.length);
}

static inline void rdram_assert_apart(const rdram_lent *lent, size_t count)
{
    int buffers_apart = 1;
    for (size_t i = 0; i < count; i++)
        for (size_t k = 0; k < i; k++)
            buffers_apart &= !rdram_overlap(lent[k], lent[i]);
    RDRAM_ASSERT(buffers_apart);
    (void)buffers_apart; /* where NDEBUG is defined too */
}

/* A buffer x among parameters: read (R), written (W), written with a number before it (NW, KW). */
#define RDRAM_TAKE_R(x) const uint8_t *x, size_t x##_len
#define RDRAM_TAKE_W(x) uint8_t *x, size_t x##_len
#define RDRAM_TAKE_NW(x) uint32_t x##_number, uint8_t *x, size_t x##_len
#define RDRAM_TAKE_KW(x) size_t x##_number, uint8_t *x, size_t x##_len
/* The same among arguments. */
#define RDRAM_PASS_R(x) x, x##_len
#define RDRAM_PASS_W(x) x, x##_len
#define RDRAM_PASS_NW(x) x##_number, x, x##_len
#define RDRAM_PASS_KW(x) x##_number, x, x##_len
/* And among those that are compared. */
#define RDRAM_LENT(x) {x, x##_len},

/* NAME_apart: call NAME after the test, by the number of its buffers. */
#define RDRAM_APART(answer, name, parameters, arguments, buffers) \
    RDRAM_ANSWER static inline answer name##_apart parameters \
    { \
        const rdram_lent lent[] = {buffers}; \
        rdram_assert_apart(lent, sizeof lent / sizeof lent[0]); \
        return name arguments; \
    }
#define RDRAM_APART_2(answer, name, A, B) \
    RDRAM_APART(answer, name, (RDRAM_TAKE_##A(a), RDRAM_TAKE_##B(b)), (RDRAM_PASS_##A(a), RDRAM_PASS_##B(b)), \
                RDRAM_LENT(a) RDRAM_LENT(b))
#define RDRAM_APART_3(answer, name, A, B, C) \
    RDRAM_APART(answer, name, (RDRAM_TAKE_##A(a), RDRAM_TAKE_##B(b), RDRAM_TAKE_##C(c)), \
                (RDRAM_PASS_##A(a), RDRAM_PASS_##B(b), RDRAM_PASS_##C(c)), RDRAM_LENT(a) RDRAM_LENT(b) RDRAM_LENT(c))
#define RDRAM_APART_4(answer, name, A, B, C, D) \
    RDRAM_APART(answer, name, (RDRAM_TAKE_##A(a), RDRAM_TAKE_##B(b), RDRAM_TAKE_##C(c), RDRAM_TAKE_##D(d)), \
                (RDRAM_PASS_##A(a), RDRAM_PASS_##B(b), RDRAM_PASS_##C(c), RDRAM_PASS_##D(d)), \
                RDRAM_LENT(a) RDRAM_LENT(b) RDRAM_LENT(c) RDRAM_LENT(d))
#define RDRAM_APART_5(answer, name, A, B, C, D, E) \
    RDRAM_APART(answer, name, (RDRAM_TAKE_##A(a), RDRAM_TAKE_##B(b), RDRAM_TAKE_##C(c), RDRAM_TAKE_##D(d), RDRAM_TAKE_##E(e)), \
                (RDRAM_PASS_##A(a), RDRAM_PASS_##B(b), RDRAM_PASS_##C(c), RDRAM_PASS_##D(d), RDRAM_PASS_##E(e)), \
                RDRAM_LENT(a) RDRAM_LENT(b) RDRAM_LENT(c) RDRAM_LENT(d) RDRAM_LENT(e))

RDRAM_APART_3(rdram_copied, rdram_log_encode, R, R, W)
RDRAM_APART_3(rdram_copied, rdram_log_decode, R, R, W)
RDRAM_APART_2(rdram_judged, rdram_check, R, R)
RDRAM_APART_2(rdram_judged, rdram_check_log, R, R)
RDRAM_APART_4(rdram_planned, rdram_plan, R, W, R, W)
RDRAM_APART_4(rdram_planned_all, rdram_plan_all, R, W, R, W)
RDRAM_APART_5(rdram_stepped, rdram_model_step, R, W, W, R, W)
RDRAM_APART_2(rdram_shortest_run, rdram_shortest, R, R)
RDRAM_APART_3(rdram_judged, rdram_page, R, R, NW)
RDRAM_APART_3(rdram_indexed, rdram_index_make, R, R, W)
RDRAM_APART_3(rdram_indexed, rdram_index_add, R, R, KW)
RDRAM_APART_4(rdram_indexed, rdram_index_query, R, R, R, NW)
RDRAM_APART_3(rdram_indexed, rdram_index_check, R, R, R)
RDRAM_APART_3(rdram_copied, rdram_stamped_encode, R, R, W)
RDRAM_APART_2(rdram_copied, rdram_stamped_decode, R, W)
RDRAM_APART_2(rdram_indexed, rdram_stamped_index, R, KW)
RDRAM_APART_3(rdram_indexed, rdram_stamped_query, R, R, NW)
RDRAM_APART_3(rdram_copied, rdram_log_stamp, R, R, W)
RDRAM_APART_2(rdram_copied, rdram_log_unstamp, R, W)

#define rdram_log_encode rdram_log_encode_apart
#define rdram_log_decode rdram_log_decode_apart
#define rdram_check rdram_check_apart
#define rdram_check_log rdram_check_log_apart
#define rdram_plan rdram_plan_apart
#define rdram_plan_all rdram_plan_all_apart
#define rdram_model_step rdram_model_step_apart
#define rdram_shortest rdram_shortest_apart
#define rdram_page rdram_page_apart
#define rdram_index_make rdram_index_make_apart
#define rdram_index_add rdram_index_add_apart
#define rdram_index_query rdram_index_query_apart
#define rdram_index_check rdram_index_check_apart
#define rdram_stamped_encode rdram_stamped_encode_apart
#define rdram_stamped_decode rdram_stamped_decode_apart
#define rdram_stamped_index rdram_stamped_index_apart
#define rdram_stamped_query rdram_stamped_query_apart
#define rdram_log_stamp rdram_log_stamp_apart
#define rdram_log_unstamp rdram_log_unstamp_apart

#endif
