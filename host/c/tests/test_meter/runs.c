/* Short runs: a fresh meter, the window's edges, refusals, and the definition cycle by cycle. */
#include "test_meter.h"

void test_fresh(void)
{
    begin(0);
    static const rdram_meter ZEROS;
    check(memcmp(&meter, &ZEROS, sizeof meter) == 0, "bytes of a fresh meter");
    rdram_counted counted = rdram_meter_count(meter);
    rdram_shared shared = rdram_meter_share(meter);
    check(counted.number == RDRAM_OK && counted.count == 0, "count of a fresh meter");
    check(shared.number == RDRAM_OK && shared.share == 0, "share of a fresh meter");
}

/* How many cycles are busy after the instants, which are all accepted. */
static uint32_t count_of(const uint32_t *at, size_t count)
{
    begin(count);
    for (size_t i = 0; i < count; i++)
        check(feeds(at[i]), "feed of %" PRIu32, at[i]);
    return rdram_meter_count(meter).count;
}

void test_window(void)
{
    check(count_of((uint32_t[]){4}, 1) == 4, "one dualoct");
    check(count_of((uint32_t[]){4, 8}, 2) == 8, "two dualocts in a row");
    /* the window after t is the cycles t - 1020 to t + 3 */
    static const uint32_t LATER[][2] = {
        {1023, 8}, {1024, 8}, {1025, 7}, {1026, 6}, {1027, 5}, {1028, 4}, {1029, 4}, {100000, 4}, {LAST, 4}};
    for (size_t i = 0; i < COUNT(LATER); i++)
        check(count_of((uint32_t[]){4, LATER[i][0]}, 2) == LATER[i][1], "4 and %" PRIu32, LATER[i][0]);
    for (uint32_t first = 5; first < 12; first++)
        for (uint32_t later = 1018; later < 1030; later++) {
            uint32_t inside = later <= 1020 ? 4 : later < 1024 ? 1024 - later : 0;
            check(count_of((uint32_t[]){first, first + later}, 2) == 4 + inside, "%" PRIu32 " and %" PRIu32 " later",
                  first, later);
        }
    begin(400);
    for (uint32_t i = 0; i < 400; i++) {
        check(feeds(4 + 4 * i), "dense feed %" PRIu32, i);
        check(rdram_meter_count(meter).count == (i < 256 ? 4 * (i + 1) : 1024), "dense count %" PRIu32, i);
    }
    check(rdram_meter_share(meter).share == 1.0f, "share of a full window");
}

void test_refusals(void)
{
    static const uint32_t OUTSIDE[] = {0, 1, 2, 3, LAST + 1, LAST + 4, 1u << 31, 0xFFFFFFFF};
    begin(8);
    for (int fed = 0; fed < 3; fed++) {
        for (size_t i = 0; i < COUNT(OUTSIDE); i++) {
            check(answer_to(OUTSIDE[i]) == RDRAM_REFUSED_HORIZON, "outside: %" PRIu32, OUTSIDE[i]);
            check(feeds(OUTSIDE[i]), "%" PRIu32 " after %d feeds", OUTSIDE[i], fed);
        }
        uint32_t at = fed == 0 ? 4 : fed == 1 ? 2000 : LAST;
        check(feeds(at) && answer_to(at) == RDRAM_REFUSED_OVERLAP, "%" PRIu32 " accepted", at);
        for (uint32_t less = 0; less < 8 && less <= at - 4; less++)
            check(feeds(at - less), "%" PRIu32 " less than the newest", less);
        for (uint32_t more = 1; more < 4; more++)
            check(feeds(at + more), "%" PRIu32 " more than the newest", more);
    }
    check(instants == 3, "only three instants are accepted");
}

/* The definition, cycle by cycle: a cycle is busy where an accepted dualoct fills it. */
void test_definition(void)
{
    static uint8_t busy[1 << 16];
    memset(busy, 0, sizeof busy);
    begin(1 << 14);
    int ok = 1;
    for (uint32_t at = 4; at < sizeof busy - 8; at += 4 + (below(3) == 0 ? below(300) : below(6))) {
        ok &= feeds(at);
        for (uint32_t c = at; c < at + 4; c++)
            busy[c] = 1;
        uint32_t count = 0;
        for (uint32_t back = 0; back < 1024 && back <= at + 3; back++)
            count += busy[at + 3 - back];
        ok &= rdram_meter_count(meter).count == count;
    }
    check(ok, "the count, cycle by cycle");
}
