/*
 * Plans a file of requests, 24 bytes each, under set H: plan_file REQUESTS LIST writes the records to
 * LIST. The file is planned in parts with a progress line after each, and where a request is refused
 * it says which one and why. Without arguments it plans a file that it makes itself, with one request
 * that is refused.
 *
 * cc -std=c11 -O2 -Ihost/c host/c/examples/plan_file.c target/staticlib/librdram.a -o plan_file
 */
#include "rdram_util.h"
#include <inttypes.h>
#include <stdio.h>

#define PART 1000 /* requests that are read at a time */
#define BAD 2345  /* the refused request of the file that is made here */

static const uint8_t SET_H[RDRAM_SETTINGS_BYTES] = RDRAM_SET_H;
static uint8_t requests[PART * RDRAM_REQUEST_BYTES], room[1024 * RDRAM_RECORD_BYTES];

/* Reads of one bank after another, and one of a bank that there is not. */
static int make(FILE *file)
{
    for (uint32_t i = 0; i < 4000; i++) {
        uint8_t request[RDRAM_REQUEST_BYTES];
        rdram_request_read(request, i == BAD ? 99 : i / 8 % 32, 0, i % 4);
        if (fwrite(request, 1, sizeof request, file) != sizeof request)
            return 0;
    }
    rewind(file);
    return 1;
}

/*
 * Plans some requests; a full room is written to the list, and the rest goes on in an empty one. Adds
 * what was planned to *planned and *records; answers the number of a refusal, or 0.
 */
static uint32_t plan(uint8_t *planner, size_t length, FILE *list, uint64_t *planned, uint64_t *records)
{
    for (size_t at = 0;;) {
        rdram_planned_all all = rdram_plan_all(SET_H, sizeof SET_H, planner, RDRAM_PLANNER_BYTES, requests + at,
                                               length - at, room, sizeof room);
        fwrite(room, RDRAM_RECORD_BYTES, all.records, list);
        at += all.place * RDRAM_REQUEST_BYTES;
        *planned += all.place;
        *records += all.records;
        if (all.number != RDRAM_REFUSED_FULL)
            return all.number;
    }
}

int main(int count, char **names)
{
    FILE *file = count > 2 ? fopen(names[1], "rb") : tmpfile();
    FILE *list = count > 2 ? fopen(names[2], "wb") : tmpfile();
    uint8_t planner[RDRAM_PLANNER_BYTES];
    uint64_t planned = 0, records = 0;
    uint32_t number = RDRAM_OK;
    size_t length;
    if (!file || !list || (count <= 2 && !make(file))) {
        fprintf(stderr, "no file\n");
        return 2;
    }
    number = rdram_planner_fresh(planner, sizeof planner);
    while (number == RDRAM_OK && (length = fread(requests, 1, sizeof requests, file)) > 0) {
        number = plan(planner, length, list, &planned, &records);
        printf("%" PRIu64 " requests planned, %" PRIu64 " records\n", planned, records);
    }
    if (number != RDRAM_OK)
        printf("stopped at request %" PRIu64 " (from 0), refusal %" PRIu32 ": %s\n", planned, number,
               rdram_refusal_text(number));
    if (fclose(list) != 0)
        number = 100;
    if (count <= 2)
        return planned == BAD && number == RDRAM_REFUSED_BANK ? 0 : 1;
    return number == RDRAM_OK ? 0 : 1;
}
