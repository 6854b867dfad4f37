/*
 * The index of a log against one that is made here, from document 02 b alone: the banks are noted
 * as the records are drawn, and no word is read back.
 */
#include "common.h"

enum { MOST = 40, WORD = RDRAM_INDEX_WORD_BYTES };

static uint8_t list[MOST * 15 * RECORD], logged[MOST * BLOCK], index_of[MOST * WORD];
static uint8_t index_out[MOST * WORD + 5], index_out_before[MOST * WORD + 5];
static uint8_t out[MOST * WORD + 3], out_before[MOST * WORD + 3];
static size_t records, blocks, log_len;
static uint32_t drawn = 12345;

static unsigned draw(unsigned below) {
    drawn = drawn * 1664525u + 1013904223u;
    return (drawn >> 8) % below;
}

/* A log of random records, and its index. */
static void draw_log(size_t count, unsigned device) {
    static const unsigned commands[] = {RDRAM_ACT, RDRAM_PRER, RDRAM_REFA, RDRAM_REFP};
    records = count;
    blocks = (count + 14) / 15;
    memset(list, 0, sizeof list);
    memset(index_of, 0, sizeof index_of);
    for (size_t i = 0; i < count; i++) {
        uint8_t *record = list + i * RECORD;
        /* one draw a line: the order in which arguments are computed is the compiler's */
        unsigned bank = draw(32), kind = draw(6);
        uint32_t at = draw(1000000);
        unsigned command = draw(4), place = draw(2), column = draw(4);
        unsigned mask = draw(0xFFFF), masked = draw(2);
        uint32_t word = (uint32_t)get(index_of + i / 15 * WORD, WORD);
        if (kind < 2) {
            put_packet(record, at, 0, row_word(device, bank, commands[command], command ? 0 : place));
            word |= 1u << bank;
        } else if (kind < 4) {
            put_packet(record, at, 1, col_word(device, bank, RDRAM_WR + command, column, masked ? mask : FULL));
            word |= 1u << bank;
        } else if (kind == 4) {
            put_packet(record, at, 1, col_word(device, 0, RDRAM_NOCOP, 0, masked ? mask : FULL));
        } else {
            put(record, at, 4);
            record[4] = 2;
            put(record + 16, draw(1 << 20), 8);
        }
        put(index_of + i / 15 * WORD, word, WORD);
    }
    log_len = put_log(logged, list, count);
}

static rdram_indexed make(size_t room) {
    return rdram_index_make(settings, sizeof settings, logged, log_len, index_out, room);
}

static rdram_indexed add(size_t kept, size_t room) {
    return rdram_index_add(settings, sizeof settings, logged, log_len, kept, index_out, room);
}

static rdram_indexed query(const uint8_t *index, size_t length, unsigned bank, size_t room) {
    return rdram_index_query(settings, sizeof settings, logged, log_len, index, length, bank, out, room);
}

static rdram_indexed judge(const uint8_t *index, size_t length) {
    return rdram_index_check(settings, sizeof settings, logged, log_len, index, length);
}

static int is(rdram_indexed a, uint32_t number, uint64_t place, uint64_t count) {
    return a.number == number && a.place == place && a.count == count;
}

/* The index that is made is the one of here, and the bytes after it stay. */
static void made(void) {
    fill(index_out, sizeof index_out);
    KEEP(index_out);
    check(is(make(sizeof index_out), 0, 0, blocks) && !memcmp(index_out, index_of, blocks * WORD)
              && !memcmp(index_out + blocks * WORD, index_out_before + blocks * WORD, sizeof index_out - blocks * WORD),
          "index of %zu records", records);
    if (blocks > 0) {
        KEEP(index_out);
        check(is(make(blocks * WORD - 1), 8, 0, 0) && STAYS(index_out), "no room for %zu words", blocks);
    }
}

/* Words that are there stay, others are written; a wrong one is named. */
static void added(void) {
    for (size_t kept = 0; kept <= blocks; kept++) {
        fill(index_out, sizeof index_out);
        memcpy(index_out, index_of, kept * WORD);
        check(is(add(kept, sizeof index_out), 0, 0, blocks) && !memcmp(index_out, index_of, blocks * WORD), "%zu words kept of %zu", kept, blocks);
        if (kept > 0) {
            size_t wrong = draw((unsigned)kept);
            unsigned byte = draw(4);
            index_out[wrong * WORD + byte] ^= (uint8_t)(1u << draw(8));
            KEEP(index_out);
            check(is(add(kept, sizeof index_out), 14, wrong, 0) && STAYS(index_out), "word %zu wrong of %zu kept", wrong, kept);
        }
    }
    memcpy(index_out, index_of, sizeof index_of);
    KEEP(index_out);
    check(is(add(blocks + 1, sizeof index_out), 14, blocks, 0) && STAYS(index_out), "more words kept than blocks");
}

/* Each bank's blocks, as a scan lists them. */
static void queried(void) {
    for (unsigned bank = 0; bank < 32; bank++) {
        uint8_t scan[MOST * WORD];
        size_t n = 0;
        for (size_t k = 0; k < blocks; k++) {
            if (get(index_of + k * WORD, WORD) >> bank & 1) {
                put(scan + n++ * WORD, k, WORD);
            }
        }
        fill(out, sizeof out);
        KEEP(out);
        check(is(query(index_of, blocks * WORD, bank, sizeof out), 0, 0, n) && !memcmp(out, scan, n * WORD)
                  && !memcmp(out + n * WORD, out_before + n * WORD, sizeof out - n * WORD),
              "blocks of bank %u in %zu", bank, blocks);
        if (n > 0) {
            KEEP(out);
            check(is(query(index_of, blocks * WORD, bank, n * WORD - 1), 8, 0, 0) && STAYS(out), "no room for %zu numbers", n);
        }
    }
}

/* An index that is wrong, too short or too long, in a query and in a check. */
static void differs(void) {
    uint8_t other[MOST * WORD + WORD];
    memset(other, 0, sizeof other);
    memcpy(other, index_of, blocks * WORD);
    KEEP(out);
    check(is(query(other, blocks * WORD + WORD, 0, sizeof out), 14, blocks, 0) && STAYS(out), "a word too many");
    check(is(judge(other, blocks * WORD + WORD), 14, blocks, 0), "checked: a word too many");
    if (blocks == 0) {
        return;
    }
    check(is(query(other, (blocks - 1) * WORD, 0, sizeof out), 14, blocks - 1, 0) && STAYS(out), "the last word missing");
    check(is(judge(other, (blocks - 1) * WORD), 14, blocks - 1, 0), "checked: the last word missing");
    size_t wrong = draw((unsigned)blocks);
    unsigned byte = draw(4);
    other[wrong * WORD + byte] ^= (uint8_t)(1u << draw(8));
    check(is(query(other, blocks * WORD, 0, sizeof out), 14, wrong, 0) && STAYS(out), "word %zu wrong", wrong);
    check(is(judge(other, blocks * WORD), 14, wrong, 0), "checked: word %zu wrong", wrong);
}

/* The order of refusals. */
static void order(void) {
    uint8_t bad[MOST * WORD];
    memset(bad, 0xFF, sizeof bad);
    use_set_h();
    draw_log(40, 0);
    KEEP(out);
    logged[BLOCK + 488] ^= 1; /* block 1 */
    check(is(query(bad, 9, 32, 0), 13, 0, 0), "index of 9 bytes before bank 32");
    check(is(query(bad, 8, 32, 0), 4, 0, 0), "bank 32 before a bad block");
    check(is(query(bad, 8, 31, 0), 12, 1, 0), "a bad block before the index");
    logged[BLOCK + 488] ^= 1;
    logged[4] = 3; /* record 0 */
    seal(logged);
    check(is(query(bad, 8, 31, 0), 10, 0, 0), "a bad record before the index");
    log_len -= 1;
    check(is(query(bad, 8, 31, 0), 13, 0, 0), "log of broken length");
    log_len += 1;
    use_bad_figure(0);
    check(is(query(bad, 9, 32, 0), 1, 0, 0) && is(judge(bad, 9), 1, 0, 0) && is(make(0), 1, 0, 0), "settings before all");
    check(STAYS(out), "nothing is written");
    use_set_h();
}

/* The rules come last: a lawful list, and one that breaks rule 10 at record 1. */
static void ruled(void) {
    use_set_h();
    memset(list, 0, sizeof list);
    put_line(list, "4 ACT 0 0");
    put_line(list + RECORD, "13 RD 0 1");
    put_line(list + 2 * RECORD, "35 PRER 0");
    log_len = put_log(logged, list, 3);
    uint8_t index[4] = {1, 0, 0, 0};
    check(is(judge(index, 4), 0, 0, 1), "a lawful log with its index");
    put_line(list + RECORD, "12 RD 0 1");
    log_len = put_log(logged, list, 3);
    rdram_indexed a = judge(index, 4);
    check(is(a, 11, 1, 0) && a.rule == 10, "rule 10 at record 1");
    index[0] = 3;
    check(is(judge(index, 4), 14, 0, 0), "14 before 11");
}

int main(void) {
    static const unsigned devices[] = {0, 15, 16, 31};
    for (int round = 0; round < 24; round++) {
        unsigned device = devices[round % 4];
        use_set_h();
        use_figure(15, device);
        draw_log(round < 3 ? (size_t)round : draw(MOST * 15 + 1), device);
        made();
        added();
        queried();
        differs();
    }
    order();
    ruled();
    for (unsigned b = 0; b < 32; b++) {
        check(rdram_index_banks(1u << b) == 1 && rdram_index_banks(~(1u << b)) == 31, "banks of bit %u", b);
    }
    check(rdram_index_banks(0) == 0 && rdram_index_banks(0xFFFFFFFFu) == 32, "banks of no bit and of all");
    return report();
}
