/*
 * Logs that carry their settings, against blocks that are written here from documents 01 and 02 i
 * alone: every length up to 45 records, every byte of a log damaged, stamps that differ, and each
 * refusal with its place.
 */
#include "common.h"

enum { MOST = 45, STAMPED = RDRAM_STAMPED_RECORDS, BLOCKS = 5 };

static uint8_t list[MOST * RECORD], wanted[BLOCKS * BLOCK], old[BLOCKS * BLOCK];
static uint8_t out[BLOCKS * BLOCK + 9], out_before[BLOCKS * BLOCK + 9], damaged[BLOCKS * BLOCK];
static uint8_t records_out[MOST * RECORD + 9], index_out[4 * BLOCKS + 3];

/* Reads of bank i modulo 4 would break rules; ACTs and PRERs of four banks in turn, far apart, do not. */
static void make_list(size_t records) {
    for (size_t i = 0; i < records; i++) {
        unsigned bank = 4 * (unsigned)(i / 2 % 4), row = i % 2 ? 0 : 1;
        uint64_t word = row_word(get(settings + 30, 1), bank, i % 2 ? RDRAM_PRER : RDRAM_ACT, row);
        put_packet(list + i * RECORD, (uint32_t)(100 + 100 * i), 0, word);
    }
}

static size_t stamped_blocks(size_t records) {
    return (records + STAMPED - 1) / STAMPED;
}

/* "The new block has 14 records (used 1 to 14), then sixteen 16-bit numbers [..]. Block number, count, zeros and check stay". */
static size_t put_stamped(uint8_t *log, size_t records) {
    size_t blocks = stamped_blocks(records);
    memset(log, 0, blocks * BLOCK);
    for (size_t k = 0; k < blocks; k++) {
        uint8_t *block = log + k * BLOCK;
        size_t used = records - k * STAMPED < STAMPED ? records - k * STAMPED : STAMPED;
        memcpy(block, list + k * STAMPED * RECORD, used * RECORD);
        memcpy(block + 448, settings, 32);
        put(block + 480, k, 4);
        put(block + 484, used, 4);
        seal(block);
    }
    return blocks * BLOCK;
}

/* The word of the index of a block: the banks of its ACTs and PRERs. */
static uint32_t touched(size_t records, size_t block) {
    uint32_t word = 0;
    for (size_t i = block * STAMPED; i < records && i < (block + 1) * STAMPED; i++)
        word |= UINT32_C(1) << 4 * (i / 2 % 4);
    return word;
}

static void test_lengths(void) {
    for (size_t n = 0; n <= MOST; n++) {
        make_list(n);
        size_t length = put_stamped(wanted, n), old_length = put_log(old, list, n);
        size_t blocks = length / BLOCK, old_blocks = old_length / BLOCK;
        fill(out, sizeof out);
        KEEP(out);
        rdram_copied made = rdram_stamped_encode(settings, sizeof settings, list, n * RECORD, out, sizeof out);
        check(made.number == 0 && made.count == blocks && memcmp(out, wanted, length) == 0, "encode %zu", n);
        check(memcmp(out + length, out_before + length, sizeof out - length) == 0, "encode %zu writes on", n);
        fill(records_out, sizeof records_out);
        made = rdram_stamped_decode(wanted, length, records_out, sizeof records_out);
        check(made.number == 0 && made.count == n && memcmp(records_out, list, n * RECORD) == 0, "decode %zu", n);
        rdram_judged judged = rdram_stamped_check(wanted, length);
        check(judged.number == 0, "check %zu: %u, rule %u", n, judged.number, judged.rule);
        fill(out, sizeof out);
        made = rdram_log_stamp(settings, sizeof settings, old, old_length, out, sizeof out);
        check(made.number == 0 && made.count == blocks && memcmp(out, wanted, length) == 0, "old to new %zu", n);
        fill(out, sizeof out);
        made = rdram_log_unstamp(wanted, length, out, sizeof out);
        check(made.number == 0 && made.count == old_blocks && memcmp(out, old, old_length) == 0, "new to old %zu", n);
        fill(index_out, sizeof index_out);
        rdram_indexed indexed = rdram_stamped_index(wanted, length, 0, index_out, sizeof index_out);
        int right = indexed.number == 0 && indexed.count == blocks;
        for (size_t k = 0; k < blocks; k++)
            right = right && get(index_out + 4 * k, 4) == touched(n, k);
        check(right, "index %zu", n);
        indexed = rdram_stamped_query(wanted, length, index_out, 4 * blocks, 4, out, sizeof out);
        size_t found = 0;
        right = indexed.number == 0;
        for (size_t k = 0; k < blocks; k++)
            if (touched(n, k) & 16)
                right = right && get(out + 4 * found++, 4) == k;
        check(right && indexed.count == found, "query %zu", n);
    }
}

/* A room that is one block or record short is 8, and nothing is written. */
static void test_room(void) {
    size_t n = 2 * STAMPED + 1;
    make_list(n);
    size_t length = put_stamped(wanted, n), old_length = put_log(old, list, n);
    fill(out, sizeof out);
    KEEP(out);
    check(rdram_stamped_encode(settings, sizeof settings, list, n * RECORD, out, length - 1).number == 8 && STAYS(out), "encode, no room");
    check(rdram_log_stamp(settings, sizeof settings, old, old_length, out, length - 1).number == 8 && STAYS(out), "old to new, no room");
    check(rdram_log_unstamp(wanted, length, out, old_length - 1).number == 8 && STAYS(out), "new to old, no room");
    check(rdram_stamped_decode(wanted, length, out, n * RECORD - 1).number == 8 && STAYS(out), "decode, no room");
    check(rdram_stamped_index(wanted, length, 0, out, 4 * (length / BLOCK) - 1).number == 8 && STAYS(out), "index, no room");
    check(rdram_stamped_decode(wanted, length - 1, out, sizeof out).number == 13 && STAYS(out), "decode, broken length");
    check(rdram_stamped_check(wanted, length - 1).number == 13, "check, broken length");
    uint8_t bad[32];
    memcpy(bad, settings, sizeof bad);
    bad[0] = 3;
    check(rdram_stamped_encode(bad, sizeof bad, list, n * RECORD, out, sizeof out).number == 1 && STAYS(out), "encode, settings");
    check(rdram_log_stamp(bad, sizeof bad, old, old_length, out, sizeof out).number == 1 && STAYS(out), "old to new, settings");
}

/* The refusal of a damaged log by every call that reads one. */
static void refused(size_t length, unsigned number, size_t place, const char *what, size_t byte) {
    fill(out, sizeof out);
    KEEP(out);
    rdram_copied copied = rdram_stamped_decode(damaged, length, out, sizeof out);
    check(copied.number == number && copied.place == place && STAYS(out), "decode, %s %zu: %u at %" PRIu64, what, byte, copied.number, copied.place);
    copied = rdram_log_unstamp(damaged, length, out, sizeof out);
    check(copied.number == number && copied.place == place && STAYS(out), "new to old, %s %zu", what, byte);
    rdram_judged judged = rdram_stamped_check(damaged, length);
    check(judged.number == number && judged.place == place, "check, %s %zu", what, byte);
    rdram_indexed indexed = rdram_stamped_index(damaged, length, 0, out, sizeof out);
    check(indexed.number == number && indexed.place == place && STAYS(out), "index, %s %zu", what, byte);
    fill(index_out, sizeof index_out);
    indexed = rdram_stamped_query(damaged, length, index_out, length / BLOCK * 4, 4, out, sizeof out);
    check(indexed.number == number && indexed.place == place && STAYS(out), "query, %s %zu", what, byte);
}

/* Without a right check word every damage is 12; with one a stamp is 17: in range in block 0 it is block 1 that differs. */
static void test_damage(void) {
    size_t n = 3 * STAMPED;
    make_list(n);
    size_t length = put_stamped(wanted, n);
    for (size_t byte = 0; byte < length; byte++) {
        memcpy(damaged, wanted, length);
        damaged[byte] ^= 1;
        refused(length, 12, byte / BLOCK, "byte", byte);
    }
    for (size_t k = 0; k < 3; k++) {
        memcpy(damaged, wanted, length);
        damaged[k * BLOCK + 448] ^= 1; /* tRC, in its range */
        seal(damaged + k * BLOCK);
        refused(length, 17, k == 0 ? 1 : k, "tRC of block", k);
        memcpy(damaged, wanted, length);
        damaged[k * BLOCK + 448] = 3; /* tRC, below its range */
        seal(damaged + k * BLOCK);
        refused(length, 17, k, "low tRC of block", k);
        damaged[8] ^= 1; /* 17 comes before 10 */
        seal(damaged);
        refused(length, 17, k, "low tRC and a bad word, block", k);
    }
    memcpy(damaged, wanted, length);
    damaged[2 * BLOCK + 5] = 1; /* a spare byte of record 28 */
    seal(damaged + 2 * BLOCK);
    refused(length, 10, 2 * STAMPED, "a bad record", 0);
}

int main(void) {
    use_set_h();
    test_lengths();
    test_room();
    test_damage();
    use_figure(15, 31 + 256 * 2);
    test_lengths();
    return report();
}
