/*
 * Runs a stream of 10,000 requests under set H through planner and model, and
 * compares what the model reads and keeps with an array that each write sets at
 * once. Ends with 0 where they are the same.
 *
 * cc -std=c11 -O2 -Ihost/c host/c/examples/run_model.c target/staticlib/librdram.a -o run_model
 */
#include "rdram.h"
#include <inttypes.h>
#include <stdio.h>
#include <stdlib.h>
#include <string.h>

enum { REQUESTS = 10000, ROWS = 2, COLUMNS = 4, STORE = RDRAM_STORE_BYTES(ROWS, COLUMNS) };

static const uint8_t SET_H[RDRAM_SETTINGS_BYTES] = RDRAM_SET_H;

static uint8_t planner[RDRAM_PLANNER_BYTES], model[RDRAM_MODEL_BYTES], store[STORE], array[STORE];
static uint64_t records, reads, retires, bytes;

/* The dualoct of a request: bank, row, column. */
static uint8_t *place(uint8_t *of, const uint8_t *request)
{
    return of + RDRAM_DUALOCT_BYTES * ((request[1] * ROWS + request[2]) * COLUMNS + request[4]);
}

static int writes(const uint8_t *request)
{
    return request[0] == RDRAM_REQUEST_WRITE || request[0] == RDRAM_REQUEST_WRITE_CLOSE;
}

/*
 * A read, a write with any mask and data, one of them with close, now and then a refresh; the last one is a
 * flush.
 */
static void make(uint8_t *request, int i)
{
    static const uint8_t KINDS[] = {RDRAM_REQUEST_READ, RDRAM_REQUEST_WRITE, RDRAM_REQUEST_READ_CLOSE,
                                    RDRAM_REQUEST_WRITE_CLOSE};
    memset(request, 0, RDRAM_REQUEST_BYTES);
    if (i == REQUESTS - 1 || i % 16 == 0) {
        request[0] = i % 16 == 0 ? RDRAM_REQUEST_REFRESH : RDRAM_REQUEST_FLUSH;
        return;
    }
    request[0] = KINDS[rand() % 4];
    request[1] = (uint8_t)(rand() % 32);
    request[2] = (uint8_t)(rand() % ROWS);
    request[4] = (uint8_t)(rand() % COLUMNS);
    for (int byte = 6; writes(request) && byte < RDRAM_REQUEST_BYTES; byte++)
        request[byte] = (uint8_t)rand();
}

static void set_array(const uint8_t *request)
{
    for (int i = 0; writes(request) && i < RDRAM_DUALOCT_BYTES; i++)
        if (request[6 + i / 8] >> i % 8 & 1)
            place(array, request)[i] = request[8 + i];
}

/* Gives the model a record of a request; 0 where an RD reads other bytes than the array has. */
static int take(const uint8_t *request, const uint8_t *record)
{
    uint8_t answer[RDRAM_DUALOCT_BYTES];
    rdram_stepped s = rdram_model_step(SET_H, sizeof SET_H, model, sizeof model, store, sizeof store, record,
                                       RDRAM_RECORD_BYTES, answer, sizeof answer);
    records++;
    reads += s.event == RDRAM_EVENT_READ;
    retires += s.event == RDRAM_EVENT_RETIRED;
    bytes += s.bytes;
    if (s.number != RDRAM_OK)
        printf("record %" PRIu64 ": refusal %" PRIu32 ", rule %" PRIu32 "\n", records - 1, s.number, s.rule);
    return s.number == RDRAM_OK
        && (s.event != RDRAM_EVENT_READ || memcmp(answer, place(array, request), sizeof answer) == 0);
}

int main(void)
{
    uint8_t request[RDRAM_REQUEST_BYTES], room[RDRAM_REQUEST_RECORDS * RDRAM_RECORD_BYTES];
    int same = 1;
    srand(1);
    for (int i = 0; i < STORE; i++)
        store[i] = array[i] = (uint8_t)rand();
    if (rdram_planner_fresh(planner, sizeof planner) != RDRAM_OK || rdram_model_fresh(model, sizeof model) != RDRAM_OK)
        return 1;
    for (int i = 0; i < REQUESTS; i++) {
        make(request, i);
        rdram_planned made =
            rdram_plan(SET_H, sizeof SET_H, planner, sizeof planner, request, sizeof request, room, sizeof room);
        if (made.number != RDRAM_OK)
            continue;
        set_array(request);
        for (uint64_t k = 0; k < made.records; k++)
            same &= take(request, room + k * RDRAM_RECORD_BYTES);
    }
    same &= memcmp(store, array, sizeof store) == 0;
    printf("%d requests, %" PRIu64 " records, %" PRIu64 " reads, %" PRIu64 " writes retired with %" PRIu64 " bytes\n",
           REQUESTS, records, reads, retires, bytes);
    printf("the model is %s the array\n", same ? "as" : "NOT as");
    return same ? 0 : 1;
}
