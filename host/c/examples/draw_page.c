/*
 * Prints a page of the channel: draw_page START plans the requests of standard input, 24 bytes each,
 * under set H, and prints 64 cycles from START on. A request that is refused is named on standard
 * error, and the next one follows. Without arguments it draws run 1 of document 01 from cycle 0 on.
 *
 * cc -std=c11 -O2 -Ihost/c host/c/examples/draw_page.c target/staticlib/librdram.a -o draw_page
 */
#include "rdram_util.h"
#include <inttypes.h>
#include <stdio.h>
#include <stdlib.h>

static const uint8_t SET_H[RDRAM_SETTINGS_BYTES] = RDRAM_SET_H;

/* read 0/0/1, write 0/0/1 mask 0003, read 0/0/1, read 1/0/0, flush, close */
static const uint8_t RUN_1[][RDRAM_REQUEST_BYTES] = {
    {RDRAM_REQUEST_READ, 0, 0, 0, 1}, {RDRAM_REQUEST_WRITE, 0, 0, 0, 1, 0, 3}, {RDRAM_REQUEST_READ, 0, 0, 0, 1},
    {RDRAM_REQUEST_READ, 1}, {RDRAM_REQUEST_FLUSH}, {RDRAM_REQUEST_CLOSE},
};

/* The list so far, which grows. */
static uint8_t *list;
static size_t length, size;

static int plan(uint8_t *planner, const uint8_t *request, size_t request_len, uint64_t place)
{
    size_t most = RDRAM_REQUEST_RECORDS * RDRAM_RECORD_BYTES;
    if (size - length < most) {
        uint8_t *longer = realloc(list, size = 2 * size + most);
        if (!longer)
            return 0;
        list = longer;
    }
    rdram_planned made = rdram_plan(SET_H, sizeof SET_H, planner, RDRAM_PLANNER_BYTES, request, request_len,
                                    list + length, size - length);
    if (made.number != RDRAM_OK)
        fprintf(stderr, "request %" PRIu64 ": %s\n", place, rdram_refusal_text(made.number));
    length += made.records * RDRAM_RECORD_BYTES;
    return 1;
}

int main(int count, char **words)
{
    uint8_t planner[RDRAM_PLANNER_BYTES], request[RDRAM_REQUEST_BYTES], page[RDRAM_PAGE_BYTES];
    char *end = "";
    unsigned long long start = count > 1 ? strtoull(words[1], &end, 10) : 0;
    int right = count < 3 && !*end && start <= UINT32_MAX;
    uint64_t place = 0;
    right = right && rdram_planner_fresh(planner, sizeof planner) == RDRAM_OK;
    for (size_t n; right && count > 1 && (n = fread(request, 1, sizeof request, stdin)) > 0; place++)
        right = plan(planner, request, n, place);
    for (; right && count == 1 && place < sizeof RUN_1 / sizeof RUN_1[0]; place++)
        right = plan(planner, RUN_1[place], RDRAM_REQUEST_BYTES, place);
    if (!right) {
        fprintf(stderr, "draw_page START < REQUESTS\n");
        return 2;
    }
    rdram_judged paged = rdram_page(SET_H, sizeof SET_H, list, length, (uint32_t)start, page, sizeof page);
    if (paged.number != RDRAM_OK) {
        fprintf(stderr, "no page: %s\n", rdram_refusal_text(paged.number));
        return 1;
    }
    fwrite(page, 1, sizeof page, stdout);
    free(list);
    return 0;
}
