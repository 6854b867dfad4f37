/*
 * Tests of RDRAM_DEBUG: each call with several buffers asserts that no two overlap, and is made where
 * none do. Prints one line for each failed check and last the line 'N passed, M failed'.
 */
#include <setjmp.h>

/* In place of an abort: a failed assertion leaves the call before it is made. */
static jmp_buf failed_assertion;
#ifndef RDRAM_DEBUG
#define RDRAM_DEBUG
#endif
#define RDRAM_ASSERT(condition) do { if (!(condition)) longjmp(failed_assertion, 1); } while (0)
#include "common.h"

#define LENGTH 16 /* of each buffer: that of no settings and no blocks, so every call is refused */

static uint8_t bytes[16 * LENGTH];
static uint8_t *at[5];
static size_t length[5];

#define B(n) at[n], length[n]

/* Makes call number n with the buffers of `at` and `length`; answers the number of its refusal. */
static uint32_t make_call(int n)
{
    switch (n) {
    case 0: return rdram_log_encode(B(0), B(1), B(2)).number;
    case 1: return rdram_log_decode(B(0), B(1), B(2)).number;
    case 2: return rdram_check(B(0), B(1)).number;
    case 3: return rdram_check_log(B(0), B(1)).number;
    case 4: return rdram_plan(B(0), B(1), B(2), B(3)).number;
    case 5: return rdram_plan_all(B(0), B(1), B(2), B(3)).number;
    case 6: return rdram_model_step(B(0), B(1), B(2), B(3), B(4)).number;
    case 7: return rdram_shortest(B(0), B(1)).number;
    case 8: return rdram_page(B(0), B(1), 4, B(2)).number;
    case 9: return rdram_index_make(B(0), B(1), B(2)).number;
    case 10: return rdram_index_add(B(0), B(1), 0, B(2)).number;
    case 11: return rdram_index_query(B(0), B(1), B(2), 7, B(3)).number;
    case 12: return rdram_index_check(B(0), B(1), B(2)).number;
    case 13: return rdram_stamped_encode(B(0), B(1), B(2)).number;
    case 14: return rdram_log_stamp(B(0), B(1), B(2)).number;
    case 15: return rdram_stamped_decode(B(0), B(1)).number;
    case 16: return rdram_stamped_index(B(0), 0, B(1)).number;
    case 17: return rdram_stamped_query(B(0), B(1), 7, B(2)).number;
    default: return rdram_log_unstamp(B(0), B(1)).number;
    }
}

static const int BUFFERS[] = {3, 3, 2, 2, 4, 4, 5, 2, 3, 3, 3, 4, 3, 3, 3, 2, 2, 3, 2};

/* 100 where an assertion failed, else what the call answers. */
static uint32_t watched(int n)
{
    if (setjmp(failed_assertion))
        return 100;
    return make_call(n);
}

/* Every pair of buffers, either first: apart, side by side, with one byte in common, the same, and one empty. */
static void test_call(int n)
{
    uint32_t refusal = n < 15 ? RDRAM_REFUSED_SETTINGS : RDRAM_REFUSED_LENGTH;
    for (int i = 0; i < 5; i++) {
        at[i] = bytes + 3 * LENGTH * i;
        length[i] = LENGTH;
    }
    check(watched(n) == refusal, "call %d, buffers apart", n);
    for (int i = 0; i < BUFFERS[n]; i++)
        for (int k = 0; k < BUFFERS[n]; k++) {
            uint8_t *kept = at[k];
            if (i == k)
                continue;
            at[k] = at[i] + LENGTH;
            check(watched(n) == refusal, "call %d, buffer %d right after %d", n, k, i);
            at[k] = at[i] + LENGTH - 1;
            check(watched(n) == 100, "call %d, buffer %d from the last byte of %d on", n, k, i);
            at[k] = at[i];
            check(watched(n) == 100, "call %d, buffer %d is %d", n, k, i);
            at[k] = at[i] + 1;
            length[k] = 0;
            check(watched(n) != 100, "call %d, an empty buffer %d in %d", n, k, i);
            at[k] = kept;
            length[k] = LENGTH;
        }
}

/* Arguments are evaluated once, and answers handed on. */
static void test_arguments(void)
{
    static const uint8_t set_h[RDRAM_SETTINGS_BYTES] = RDRAM_SET_H;
    const uint8_t *list = bytes;
    check(rdram_check(set_h, sizeof set_h, list++, 0).number == RDRAM_OK && list == bytes + 1, "arguments evaluated once");
    check(rdram_check(set_h, sizeof set_h, NULL, 0).number == RDRAM_OK, "an empty list at a null pointer");
}

int main(void)
{
    for (int n = 0; n < (int)COUNT(BUFFERS); n++)
        test_call(n);
    test_arguments();
    return report();
}
