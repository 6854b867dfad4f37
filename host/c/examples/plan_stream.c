/*
 * Plans a stream of requests under set H and prints the packets: instant, name,
 * bank, row or column, mask; and how many banks the close looked at. The stream is
 * run 1 of document 01, and a read that closes its bank: RDA has a PRER in it.
 *
 * cc -std=c11 -O2 -Ihost/c host/c/examples/plan_stream.c target/staticlib/librdram.a -o plan_stream
 */
#include "rdram_util.h"
#include <inttypes.h>
#include <stdio.h>

static const uint8_t SET_H[RDRAM_SETTINGS_BYTES] = RDRAM_SET_H;

int main(void)
{
    /* kind, bank, row 2, column, 0, mask 2, data 16 */
    static const uint8_t requests[][RDRAM_REQUEST_BYTES] = {
        {RDRAM_REQUEST_READ, 0, 0, 0, 1}, {RDRAM_REQUEST_WRITE, 0, 0, 0, 1, 0, 3, 0, 0xAA, 0xBB},
        {RDRAM_REQUEST_READ, 0, 0, 0, 1}, {RDRAM_REQUEST_READ, 1}, {RDRAM_REQUEST_FLUSH}, {RDRAM_REQUEST_CLOSE},
        {RDRAM_REQUEST_READ_CLOSE, 5, 1, 0, 2}};
    uint8_t planner[RDRAM_PLANNER_BYTES], room[RDRAM_REQUEST_RECORDS * RDRAM_RECORD_BYTES];
    uint64_t records = 0;
    char line[RDRAM_LINE_BYTES];
    rdram_lines lines = {0, 0};
    if (rdram_planner_fresh(planner, sizeof planner) != RDRAM_OK)
        return 1;
    for (size_t i = 0; i < sizeof requests / sizeof requests[0]; i++) {
        rdram_planned made = rdram_plan(SET_H, sizeof SET_H, planner, sizeof planner, requests[i], sizeof requests[i],
                                        room, sizeof room);
        if (made.number != RDRAM_OK)
            printf("refused: %s\n", rdram_refusal_text(made.number));
        for (uint64_t k = 0; k < made.records; k++)
            if (rdram_line(&lines, SET_H, room + k * RDRAM_RECORD_BYTES, line))
                puts(line);
        if (requests[i][0] == RDRAM_REQUEST_CLOSE)
            printf("banks looked at %" PRIu32 "\n", made.banks);
        records += made.records;
    }
    printf("records %" PRIu64 "\n", records);
    return records == 12 ? 0 : 1;
}
