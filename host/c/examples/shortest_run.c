/*
 * Cuts a log down to the shortest run that breaks the same rule at the same record, under set H:
 * shortest_run LOG RUN reads a log of blocks from the file LOG, prints the run, and writes it to the
 * file RUN as a log of its own. Ends with 0 where there is a run. Without arguments it makes a log
 * with a fault after thousands of records, and ends with 0 where the run that was written is refused
 * by the same rule at its last record.
 *
 * cc -std=c11 -O2 -Ihost/c host/c/examples/shortest_run.c target/staticlib/librdram.a -o shortest_run
 */
#include "rdram_util.h"
#include <inttypes.h>
#include <stdio.h>

#define BLOCKS 100000
#define MOST (BLOCKS * RDRAM_BLOCK_RECORDS)

static const uint8_t SET_H[RDRAM_SETTINGS_BYTES] = RDRAM_SET_H;
static uint8_t blocks[BLOCKS * RDRAM_BLOCK_BYTES + 1], list[MOST * RDRAM_RECORD_BYTES];

/* A log of reads and writes that close their banks, of one that does not, and of an ACT beside that bank. */
static int make(FILE *file)
{
    uint8_t planner[RDRAM_PLANNER_BYTES];
    size_t length = 0;
    if (rdram_planner_fresh(planner, sizeof planner) != RDRAM_OK)
        return 0;
    for (uint32_t i = 3001; i-- > 0;) {
        uint8_t request[RDRAM_REQUEST_BYTES];
        uint32_t kind = i % 3 == 1 ? RDRAM_REQUEST_WRITE_CLOSE : RDRAM_REQUEST_READ_CLOSE;
        rdram_request_put(request, i == 0 ? (uint32_t)RDRAM_REQUEST_READ : kind, i * 5 % 32, 0, i % 4);
        length += RDRAM_RECORD_BYTES
                  * rdram_plan(SET_H, sizeof SET_H, planner, sizeof planner, request, sizeof request, list + length,
                               sizeof list - length).records;
    }
    if (rdram_packet_put(list + length, SET_H, rdram_planner_now(planner) + 64, RDRAM_ACT, 1, 0, 0) != RDRAM_OK)
        return 0;
    length += RDRAM_RECORD_BYTES;
    rdram_copied log = rdram_log_encode(SET_H, sizeof SET_H, list, length, blocks, sizeof blocks - 1);
    return fwrite(blocks, RDRAM_BLOCK_BYTES, log.count, file) == log.count && log.number == RDRAM_OK;
}

/* Prints the shortest run of a log and writes it; answers 1 where there is one. */
static int cut(size_t length, FILE *file)
{
    rdram_copied log = rdram_log_decode(SET_H, sizeof SET_H, blocks, length, list, sizeof list);
    if (log.number != RDRAM_OK) {
        printf("no log under set H: %s, at %" PRIu64 "\n", rdram_refusal_text(log.number), log.place);
        return 0;
    }
    rdram_shortest_run run = rdram_shortest(SET_H, sizeof SET_H, list, log.count * RDRAM_RECORD_BYTES);
    if (run.number == RDRAM_OK) {
        printf("the log passes\n");
        return 0;
    }
    printf("record %" PRIu64 " of %" PRIu64 " breaks rule %" PRIu32 ": %s\n", run.place, log.count, run.rule,
           rdram_rule_text(run.rule));
    printf("records %" PRIu64 " to %" PRIu64 " tell it:\n", run.start, run.place);
    rdram_lines lines = {0, 0};
    char line[RDRAM_LINE_BYTES];
    for (uint64_t i = run.start; i <= run.place; i++)
        if (rdram_line(&lines, SET_H, list + i * RDRAM_RECORD_BYTES, line))
            puts(line);
    rdram_copied out = rdram_log_encode(SET_H, sizeof SET_H, list + run.start * RDRAM_RECORD_BYTES,
                                        (run.place - run.start + 1) * RDRAM_RECORD_BYTES, blocks, sizeof blocks - 1);
    return out.number == RDRAM_OK && fwrite(blocks, RDRAM_BLOCK_BYTES, out.count, file) == out.count && fflush(file) == 0;
}

int main(int count, char **names)
{
    FILE *in = count == 3 ? fopen(names[1], "rb") : tmpfile();
    FILE *out = count == 3 ? fopen(names[2], "wb") : tmpfile();
    if ((count != 1 && count != 3) || !in || !out || (count == 1 && !make(in))) {
        fprintf(stderr, "usage: shortest_run [LOG RUN], a log of at most %d blocks\n", BLOCKS);
        return 2;
    }
    rewind(in);
    size_t length = fread(blocks, 1, sizeof blocks, in);
    if (length == sizeof blocks || !cut(length, out))
        return 1;
    if (count == 3)
        return fclose(out) != 0;
    rewind(out);
    length = fread(blocks, 1, sizeof blocks, out);
    rdram_judged again = rdram_check_log(SET_H, sizeof SET_H, blocks, length);
    printf("the run as a log: record %" PRIu64 " breaks rule %" PRIu32 "\n", again.place, again.rule);
    return again.number == RDRAM_REFUSED_RULE && again.rule == 4 && again.place == 2 ? 0 : 1;
}
