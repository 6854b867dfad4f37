/* Long streams: dense, sparse, at the edges of the window, mixed, with refused feeds, to the last instant. */
#include "test_meter.h"

#define FEEDS 150000

/* The distance to the next instant, by stream. */
static uint32_t distance(int stream)
{
    switch (stream) {
    case 0: return 4 + below(4);                               /* dense */
    case 1: return 200 + below(2000);                          /* sparse */
    case 2: return below(2) ? 4 : 1012 + below(20);            /* the window's edges */
    default: return below(8) ? below(12) : below(300) * below(9); /* mixed, also overlaps */
    }
}

void test_streams(void)
{
    static const char *const NAMES[] = {"dense", "sparse", "at the edges", "mixed"};
    for (int stream = 0; stream < 4; stream++) {
        int ok = 1;
        begin(FEEDS + 20000);
        uint32_t at = 4 + below(2000);
        for (int i = 0; i < FEEDS; i++) {
            ok &= feeds(at);
            at += distance(stream);
        }
        check(ok && instants > FEEDS / 4, "stream %s", NAMES[stream]);
        for (at = LAST - 40 * 1000; at < LAST + 2000; at += distance(stream))
            ok &= feeds(at);
        check(ok, "stream %s at the last instant", NAMES[stream]);
    }
}
