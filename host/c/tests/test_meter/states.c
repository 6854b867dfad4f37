/* Meters that no feeds give, and those that come back: each is fed anew from its own marks. */
#include "test_meter.h"

/* Whether feeds give the meter: its marked instants, fed to a fresh one in rising order, do. */
static int given(const rdram_meter *m)
{
    rdram_meter fresh = rdram_meter_fresh();
    for (uint32_t age = 1024; age-- > 0;)
        if (m->marks[age / 64] >> age % 64 & 1) {
            if (m->newest > LAST || m->newest < age || rdram_meter_feed(&fresh, (uint32_t)m->newest - age) != RDRAM_OK)
                return 0;
        }
    return memcmp(&fresh, m, sizeof fresh) == 0;
}

/* Every call takes the meter exactly where feeds give it; a refused call changes nothing. */
static int answers(rdram_meter m)
{
    rdram_meter after = m;
    int good = given(&m);
    uint32_t number = good ? RDRAM_OK : RDRAM_REFUSED_SETTINGS;
    int ok = rdram_meter_count(m).number == number && rdram_meter_share(m).number == number;
    if (!good) {
        ok &= rdram_meter_count(m).count == 0 && rdram_meter_share(m).share == 0;
        /* 1 comes before 7 and 16 */
        for (int i = 0; i < 3; i++)
            ok &= rdram_meter_feed(&after, (uint32_t[]){0, 4, LAST}[i]) == RDRAM_REFUSED_SETTINGS;
    } else {
        ok &= rdram_meter_feed(&after, 0) == RDRAM_REFUSED_HORIZON;
    }
    return ok && memcmp(&after, &m, sizeof m) == 0;
}

/* A meter after some feeds. */
static rdram_meter some_meter(uint32_t first, uint32_t feeds, uint32_t spread)
{
    rdram_meter m = rdram_meter_fresh();
    int ok = 1;
    for (uint32_t at = first; feeds-- > 0; at += 4 + below(spread))
        ok &= rdram_meter_feed(&m, at) == RDRAM_OK;
    check(ok, "feeds from %" PRIu32, first);
    return m;
}

void test_bits(void)
{
    static const uint32_t FIRST[] = {4, 5, 700, 5000, LAST - 6000};
    for (size_t i = 0; i < COUNT(FIRST); i++)
        for (uint32_t feeds = 0; feeds < 300; feeds += 37) {
            rdram_meter m = some_meter(FIRST[i], feeds, i % 2 ? 5 : 20);
            check(given(&m) && answers(m), "meter from %" PRIu32 " after %" PRIu32, FIRST[i], feeds);
            int ok = 1;
            for (int bit = 0; bit < 1024; bit++) {
                rdram_meter other = m;
                other.marks[bit / 64] ^= (uint64_t)1 << bit % 64;
                ok &= answers(other);
            }
            check(ok, "one mark more or less, from %" PRIu32 " after %" PRIu32, FIRST[i], feeds);
        }
}

void test_newest(void)
{
    for (uint32_t feeds = 0; feeds < 4; feeds++) {
        rdram_meter m = some_meter(4, feeds, 1);
        int ok = 1;
        for (uint64_t newest = 0; newest < 1100; newest++) {
            m.newest = newest;
            ok &= answers(m);
        }
        static const uint64_t FAR[] = {LAST - 1, LAST, LAST + 1, 1u << 31, 1ull << 32, (1ull << 32) + 4, UINT64_MAX};
        for (size_t i = 0; i < COUNT(FAR); i++) {
            m.newest = FAR[i];
            ok &= answers(m);
        }
        check(ok, "other newest instants after %" PRIu32 " feeds", feeds);
    }
}

/* Words that are random, or hold few marks. */
void test_random_states(void)
{
    int ok = 1, good = 0;
    for (int i = 0; i < 20000; i++) {
        rdram_meter m = i % 2 ? some_meter(4 + below(2000), below(300), 1 + below(30)) : rdram_meter_fresh();
        m.newest = i % 3 ? m.newest : below(2) ? below(1100) : below(LAST + 10);
        for (uint32_t marks = below(6); marks > 0; marks--)
            m.marks[below(16)] |= (uint64_t)1 << below(64);
        if (below(3) == 0)
            m.marks[0] |= 1;
        good += given(&m);
        ok &= answers(m);
    }
    check(ok, "random states");
    check(good > 1000 && good < 19000, "random states of both kinds: %d of 20000 are given", good);
}
