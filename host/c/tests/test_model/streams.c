/* Planner and model: any requests, planned and run through a model, against an array. */
#include "test_model.h"

static uint32_t random_below(uint32_t n)
{
    static uint64_t x = 0x9E3779B97F4A7C15;
    x ^= x << 13;
    x ^= x >> 7;
    x ^= x << 17;
    return (uint32_t)(x >> 33) % n;
}

static unsigned ones(unsigned mask)
{
    return mask ? (mask & 1) + ones(mask >> 1) : 0;
}

static uint8_t request[RDRAM_REQUEST_BYTES], planner[RDRAM_PLANNER_BYTES];
static uint8_t room[RDRAM_REQUEST_RECORDS * RECORD];

static int writes(void)
{
    return request[0] == RDRAM_REQUEST_WRITE || request[0] == RDRAM_REQUEST_WRITE_CLOSE;
}

static int reads_or_writes(void)
{
    return writes() || request[0] == RDRAM_REQUEST_READ || request[0] == RDRAM_REQUEST_READ_CLOSE;
}

static void any_request(void)
{
    static const uint8_t KINDS[] = {0, 0, 0, 0, 1, 1, 1, 1, 2, 3, 4, 5, 6, 6, 7, 7};
    memset(request, 0, sizeof request);
    request[0] = KINDS[random_below(sizeof KINDS)];
    if (request[0] == RDRAM_REQUEST_WAIT)
        request[8] = (uint8_t)random_below(30);
    if (!reads_or_writes())
        return;
    request[1] = (uint8_t)(random_below(33) < 24 ? random_below(4) : random_below(33)); /* 32 is refused */
    request[2] = (uint8_t)random_below(ROWS);
    request[4] = (uint8_t)random_below(COLUMNS);
    if (writes()) {
        put(request + 6, random_below(4) ? random_below(0x10000) : 0xFFFF, 2);
        for (int i = 8; i < 24; i++)
            request[i] = (uint8_t)random_below(256);
    }
}

static uint64_t reads, retired_bytes, mask_ones;

/* The records of a request through the model; what an RD answers is in the array. */
static int records_right(uint64_t records)
{
    int ok = 1;
    for (uint64_t k = 0; k < records; k++) {
        memcpy(record, room + RECORD * k, RECORD);
        if (random_below(4) == 0 && record[4] == RDRAM_KIND_COL && (get(record + 8, 8) >> 17 & 3) == 3) /* RD or RDA */
            ok &= refuses(RDRAM_REFUSED_FULL, 0, random_below(DUALOCT));
        rdram_stepped got = step(DUALOCT);
        ok &= got.number == RDRAM_OK && guards_stay();
        retired_bytes += got.bytes;
        if (got.event == RDRAM_EVENT_READ) {
            reads++;
            ok &= memcmp(answer, dualoct(wanted, request[1], request[2], request[4]), DUALOCT) == 0;
        }
    }
    return ok;
}

static void feed_array(void)
{
    unsigned mask = (unsigned)get(request + 6, 2);
    if (!writes())
        return;
    mask_ones += ones(mask);
    want_bytes(request[1], request[2], request[4], mask, request + 8);
}

void test_whole_runs(void)
{
    unsigned refused = 0;
    for (unsigned runs = 0; runs < 150; runs++) {
        int ok = rdram_planner_fresh(planner, sizeof planner) == 0;
        begin();
        use_core(runs % CORES);
        use_figure(T_OFFP, 4 + runs % 29);
        for (int requests = 0; requests <= 100; requests++) {
            any_request();
            if (requests == 100) {
                memset(request, 0, sizeof request);
                request[0] = RDRAM_REQUEST_FLUSH;
            }
            rdram_planned made = rdram_plan(settings, sizeof settings, planner, sizeof planner, request, sizeof request,
                                            room, sizeof room);
            refused += made.number != RDRAM_OK;
            if (made.number != RDRAM_OK)
                continue;
            feed_array();
            ok &= records_right(made.records);
            ok &= request[0] != RDRAM_REQUEST_FLUSH || store_right();
        }
        check(ok && store_right(), "run %u against an array", runs);
    }
    check(reads > 1000 && refused > 10, "%" PRIu64 " reads, %u refused", reads, refused);
    check(retired_bytes == mask_ones, "%" PRIu64 " bytes retired, %" PRIu64 " ones", retired_bytes, mask_ones);
}
