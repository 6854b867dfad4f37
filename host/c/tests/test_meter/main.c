/*
 * Tests of rdram_meter_fresh, rdram_meter_feed, rdram_meter_count and rdram_meter_share through
 * rdram.h. Prints one line for each failed check and last the line 'N passed, M failed'.
 */
#include "test_meter.h"
#include <stdlib.h>

_Static_assert(sizeof(rdram_meter) == RDRAM_METER_BYTES, "layout of rdram_meter");
_Static_assert(offsetof(rdram_meter, newest) == 128, "layout of rdram_meter");
_Static_assert(sizeof(rdram_counted) == 8 && sizeof(rdram_shared) == 8, "layout of the answers");

rdram_meter meter;
uint32_t *accepted;
size_t instants;

void begin(size_t most)
{
    free(accepted);
    accepted = malloc((most + 1) * sizeof *accepted);
    instants = 0;
    meter = rdram_meter_fresh();
}

uint32_t answer_to(uint32_t at)
{
    if (at < 4 || at > LAST)
        return RDRAM_REFUSED_HORIZON;
    if (instants > 0 && at < accepted[instants - 1] + 4)
        return RDRAM_REFUSED_OVERLAP;
    return RDRAM_OK;
}

uint32_t busy_cycles(void)
{
    if (instants == 0)
        return 0;
    /* the window is the cycles end - 1024 to end - 1 */
    int64_t end = (int64_t)accepted[instants - 1] + 4, busy = 0;
    for (size_t i = instants; i-- > 0 && accepted[i] + 4 > end - 1024;) {
        int64_t from = accepted[i] > end - 1024 ? accepted[i] : end - 1024;
        busy += accepted[i] + 4 - from;
    }
    return (uint32_t)busy;
}

int feeds(uint32_t at)
{
    rdram_meter before = meter;
    uint32_t right = answer_to(at);
    int ok = rdram_meter_feed(&meter, at) == right;
    if (right == RDRAM_OK)
        accepted[instants++] = at;
    else
        ok &= memcmp(&meter, &before, sizeof meter) == 0;
    uint32_t busy = busy_cycles();
    rdram_counted counted = rdram_meter_count(meter);
    rdram_shared shared = rdram_meter_share(meter);
    ok &= busy <= 1024 && counted.number == RDRAM_OK && counted.count == busy;
    return ok && shared.number == RDRAM_OK && (double)shared.share == busy / 1024.0;
}

uint32_t below(uint32_t n)
{
    static uint64_t x = 0x9E3779B97F4A7C15;
    x ^= x << 13;
    x ^= x >> 7;
    x ^= x << 17;
    return (uint32_t)((x >> 32) % n);
}

int main(void)
{
    test_fresh();
    test_window();
    test_refusals();
    test_definition();
    test_streams();
    test_bits();
    test_newest();
    test_random_states();
    free(accepted);
    return report();
}
