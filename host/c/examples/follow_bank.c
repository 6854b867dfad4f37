/*
 * Follows one bank through a log on disk: plans reads of many banks under set H, writes
 * the log and its index to two files, opens them again, and lists the blocks that touch bank 7 and
 * the records of theirs that name it.
 *
 * cc -std=c11 -O2 -Ihost/c host/c/examples/follow_bank.c target/staticlib/librdram.a -o follow_bank
 */
#include "rdram_util.h"
#include <inttypes.h>
#include <stdio.h>
#include <string.h>

#define BANK 7
#define REQUESTS 200
#define RECORDS (REQUESTS * RDRAM_REQUEST_RECORDS)
#define BLOCKS (RECORDS / RDRAM_BLOCK_RECORDS + 1)

static const uint8_t SET_H[RDRAM_SETTINGS_BYTES] = RDRAM_SET_H;
static uint8_t list[RECORDS * RDRAM_RECORD_BYTES], blocks[BLOCKS * RDRAM_BLOCK_BYTES];
static uint8_t words[BLOCKS * RDRAM_INDEX_WORD_BYTES], found[BLOCKS * 4];

/* A list of records of reads of one bank after another; answers how many. */
static size_t plan(void)
{
    uint8_t planner[RDRAM_PLANNER_BYTES];
    size_t records = 0;
    if (rdram_planner_fresh(planner, sizeof planner) != RDRAM_OK)
        return 0;
    for (uint32_t i = 0; i < REQUESTS; i++) {
        uint8_t request[RDRAM_REQUEST_BYTES];
        rdram_request_read(request, i / 3 * 5 % 32, 0, i % 4);
        rdram_planned made = rdram_plan(SET_H, sizeof SET_H, planner, sizeof planner, request, sizeof request,
                                        list + records * RDRAM_RECORD_BYTES, sizeof list - records * RDRAM_RECORD_BYTES);
        if (made.number != RDRAM_OK)
            return 0;
        records += made.records;
    }
    return records;
}

static int keep(FILE *file, const uint8_t *bytes, size_t length)
{
    return file && fwrite(bytes, 1, length, file) == length && fflush(file) == 0;
}

static size_t load(FILE *file, uint8_t *bytes, size_t room)
{
    rewind(file);
    return fread(bytes, 1, room, file);
}

/* The records of a block that name the bank. */
static void show(uint64_t k)
{
    const uint8_t *block = blocks + k * RDRAM_BLOCK_BYTES;
    printf("block %" PRIu64 ", %" PRIu32 " banks:", k, rdram_index_banks((uint32_t)rdram_get(words + 4 * k, 4)));
    for (uint64_t i = 0; i < rdram_get(block + 484, 4); i++) {
        const uint8_t *record = block + i * RDRAM_RECORD_BYTES;
        rdram_packet p = rdram_packet_get(record, SET_H);
        if (p.number == RDRAM_OK && p.command != RDRAM_NOCOP && p.bank == BANK)
            printf(" %" PRIu32, rdram_record_get(record).instant);
    }
    putchar('\n');
}

int main(void)
{
    FILE *log_file = tmpfile(), *index_file = tmpfile();
    rdram_copied log = rdram_log_encode(SET_H, sizeof SET_H, list, plan() * RDRAM_RECORD_BYTES, blocks, sizeof blocks);
    rdram_indexed index = rdram_index_make(SET_H, sizeof SET_H, blocks, log.count * RDRAM_BLOCK_BYTES, words, sizeof words);
    if (log.number != RDRAM_OK || index.number != RDRAM_OK || log.count == 0
        || !keep(log_file, blocks, log.count * RDRAM_BLOCK_BYTES) || !keep(index_file, words, index.count * 4))
        return 1;
    memset(blocks, 0, sizeof blocks);
    memset(words, 0, sizeof words);

    size_t log_len = load(log_file, blocks, sizeof blocks), index_len = load(index_file, words, sizeof words);
    rdram_indexed lines = rdram_index_query(SET_H, sizeof SET_H, blocks, log_len, words, index_len, BANK, found, sizeof found);
    if (lines.number != RDRAM_OK) {
        fprintf(stderr, "%s, at %" PRIu64 "\n", rdram_refusal_text(lines.number), lines.place);
        return 1;
    }
    printf("bank %d: %" PRIu64 " of %zu blocks\n", BANK, lines.count, log_len / RDRAM_BLOCK_BYTES);
    for (uint64_t i = 0; i < lines.count; i++)
        show(rdram_get(found + 4 * i, 4));
    fclose(log_file);
    fclose(index_file);
    return 0;
}
