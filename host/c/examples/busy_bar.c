/*
 * Plans a stream of requests under set H, feeds a meter with the data instants of the packets, and
 * draws how busy the data pins were after each request. Data go at a D record's instant and come
 * tCAC after an RD or RDA; in a planned list these instants rise.
 *
 * cc -std=c11 -O2 -Ihost/c host/c/examples/busy_bar.c target/staticlib/librdram.a -o busy_bar
 */
#include "rdram_util.h"
#include <inttypes.h>
#include <stdio.h>

#define T_CAC 8
#define CELLS 32

static const uint8_t SET_H[RDRAM_SETTINGS_BYTES] = RDRAM_SET_H;

/* The data instant of a record, or 0. */
static uint32_t data_instant(const uint8_t *record)
{
    uint32_t at = rdram_record_get(record).instant;
    if (record[4] == RDRAM_KIND_D)
        return at;
    rdram_packet p = rdram_packet_get(record, SET_H);
    return p.number == RDRAM_OK && (p.command == RDRAM_RD || p.command == RDRAM_RDA) ? at + T_CAC : 0;
}

static void draw(uint32_t at, const rdram_meter *meter)
{
    rdram_shared busy = rdram_meter_share(*meter);
    int full = (int)(busy.share * CELLS + 0.5f);
    printf("%6" PRIu32 " ", at);
    for (int i = 0; i < CELLS; i++)
        putchar(i < full ? '#' : '.');
    printf(" %4" PRIu32 " of %d, %.4f\n", rdram_meter_count(*meter).count, RDRAM_METER_CYCLES, (double)busy.share);
}

/* 320 reads in a row; then reads and writes with waits between them, of 12 cycles and later of 60. */
static void make(uint8_t request[RDRAM_REQUEST_BYTES], int i)
{
    static const uint8_t data[RDRAM_DUALOCT_BYTES];
    if (i > 320 && i % 2 == 1)
        rdram_request_wait(request, i < 480 ? 12 : 60);
    else if (i > 320 && i % 8 == 0)
        rdram_request_write(request, 0, 0, 0, 0, data);
    else
        rdram_request_read(request, 0, 0, (uint32_t)i % 3);
}

int main(void)
{
    uint8_t planner[RDRAM_PLANNER_BYTES], request[RDRAM_REQUEST_BYTES];
    uint8_t room[RDRAM_REQUEST_RECORDS * RDRAM_RECORD_BYTES];
    rdram_meter meter = rdram_meter_fresh();
    uint32_t at = 0;
    if (rdram_planner_fresh(planner, sizeof planner) != RDRAM_OK)
        return 1;
    for (int i = 0; i < 640; i++) {
        make(request, i);
        rdram_planned made = rdram_plan(SET_H, sizeof SET_H, planner, sizeof planner, request, sizeof request, room,
                                        sizeof room);
        for (uint64_t k = 0; k < made.records; k++) {
            uint32_t data = data_instant(room + k * RDRAM_RECORD_BYTES);
            if (data != 0 && rdram_meter_feed(&meter, data) != RDRAM_OK)
                return 1;
            at = data != 0 ? data : at;
        }
        if (i % 32 == 31)
            draw(at, &meter);
    }
    return rdram_meter_count(meter).count == 68 ? 0 : 1;
}
