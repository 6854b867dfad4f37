/*
 * counts CALL STREAM SETUP N: N requests or records of one call, after a set-up that is the same for every N, so that the
 * instructions of one more are those of two runs less each other (host/bench/counts).
 * Streams: hits (reads of one open row), writes (writes of one open row), random (reads and masked writes anywhere), close (reads that
 * close their bank).
 */
#include <rdram_util.h>
#include <stdio.h>
#include <stdlib.h>
#include <string.h>

enum { MOST = 8000 };
static uint8_t requests[MOST * RDRAM_REQUEST_BYTES], room[MOST * 8 * RDRAM_RECORD_BYTES], log_bytes[MOST * RDRAM_BLOCK_BYTES], back[sizeof room];
static uint8_t planner[RDRAM_PLANNER_BYTES], model[RDRAM_MODEL_BYTES], answer[RDRAM_DUALOCT_BYTES], *store;
static const rdram_figures figures = {28, 20, 8, 8, 8, 9, 8, 4, 4, 4, 8, 6, 4, 512, 64, 0, RDRAM_CORE_SPLIT};
static uint8_t settings[RDRAM_SETTINGS_BYTES];
static const uint8_t data[RDRAM_DUALOCT_BYTES] = {1, 2, 3, 4, 5, 6, 7, 8, 9, 10, 11, 12, 13, 14, 15, 16};

static uint32_t drawn(uint32_t below)
{
    static uint32_t seed = 1;
    seed = seed * 1664525u + 1013904223u;
    return (seed >> 8) % below;
}

static void request(uint8_t *to, const char *stream, uint32_t i)
{
    uint32_t bank = drawn(32), row = drawn(512), column = drawn(64), mask = drawn(0x10000), kind = drawn(2);
    if (!strcmp(stream, "hits"))
        rdram_request_read(to, 0, 0, i % 64);
    else if (!strcmp(stream, "writes"))
        rdram_request_write(to, 0, 0, i % 64, RDRAM_MASK_FULL, data);
    else if (!strcmp(stream, "close"))
        rdram_request_read_close(to, bank, row, column);
    else if (kind == 0)
        rdram_request_read(to, bank, row, column);
    else
        rdram_request_write(to, bank, row, column, mask, data);
}

static uint32_t plan_each(uint32_t n)
{
    uint32_t number = 0;
    for (uint32_t i = 0; i < n; i++)
        number |= rdram_plan(settings, sizeof settings, planner, sizeof planner, requests + i * RDRAM_REQUEST_BYTES, RDRAM_REQUEST_BYTES,
                             room, sizeof room).number;
    return number;
}

static uint32_t step_each(uint32_t n)
{
    uint32_t number = 0;
    for (uint32_t i = 0; i < n; i++)
        number |= rdram_model_step(settings, sizeof settings, model, sizeof model, store, RDRAM_STORE_BYTES(512, 64),
                                   room + i * RDRAM_RECORD_BYTES, RDRAM_RECORD_BYTES, answer, sizeof answer).number;
    return number;
}

/* n of them; the answers' numbers, or-ed: 0 where all were accepted. */
static uint32_t run(const char *call, uint32_t n)
{
    const size_t list_len = n * RDRAM_RECORD_BYTES, log_len = n / RDRAM_BLOCK_RECORDS * RDRAM_BLOCK_BYTES;
    if (!strcmp(call, "rdram_plan"))
        return plan_each(n);
    if (!strcmp(call, "rdram_model_step"))
        return step_each(n);
    if (!strcmp(call, "rdram_check"))
        return rdram_check(settings, sizeof settings, room, list_len).number;
    if (!strcmp(call, "rdram_log_encode"))
        return rdram_log_encode(settings, sizeof settings, room, list_len, log_bytes, sizeof log_bytes).number;
    if (!strcmp(call, "rdram_log_decode"))
        return rdram_log_decode(settings, sizeof settings, log_bytes, log_len, back, sizeof back).number;
    return rdram_plan_all(settings, sizeof settings, planner, sizeof planner, requests, n * RDRAM_REQUEST_BYTES, room, sizeof room).number;
}

int main(int argc, char **argv)
{
    if (argc != 5)
        return 2;
    uint32_t setup = (uint32_t)atoi(argv[3]), number = 0;
    rdram_settings_put(settings, &figures);
    for (uint32_t i = 0; i < setup; i++)
        request(requests + i * RDRAM_REQUEST_BYTES, argv[2], i);
    number |= rdram_planner_fresh(planner, sizeof planner) | rdram_model_fresh(model, sizeof model);
    if (!(store = calloc(1, RDRAM_STORE_BYTES(512, 64))))
        return 2;
    if (strncmp(argv[1], "rdram_plan", 10)) {
        number |= rdram_plan_all(settings, sizeof settings, planner, sizeof planner, requests, setup * RDRAM_REQUEST_BYTES, room, sizeof room).number;
        number |= rdram_log_encode(settings, sizeof settings, room, setup * RDRAM_RECORD_BYTES, log_bytes, sizeof log_bytes).number;
    }
    number |= run(argv[1], (uint32_t)atoi(argv[4]));
    if (number != RDRAM_OK)
        printf("%s %s: refused\n", argv[1], argv[2]);
    return number != RDRAM_OK;
}
