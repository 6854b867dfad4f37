/* Logs: lists into blocks and back, of every length, into rooms of every size. */
#include "test.h"

/* The calls with a null pointer as their room. */

static rdram_copied encode_to_null(size_t list_len)
{
    remember();
    return rdram_log_encode(settings, sizeof settings, list, list_len, NULL, 0);
}

static rdram_copied decode_to_null(size_t log_len)
{
    remember();
    return rdram_log_decode(settings, sizeof settings, block_log, log_len, NULL, 0);
}

void test_null(void)
{
    use(2, 4, 0);
    fill(list, sizeof list);
    fill(block_log, sizeof block_log);
    check(accepted(rdram_log_encode(settings, sizeof settings, NULL, 0, NULL, 0), 0), "empty list, null buffers");
    check(accepted(rdram_log_decode(settings, sizeof settings, NULL, 0, NULL, 0), 0), "empty log, null buffers");
    check(accepted(encode(0, sizeof block_log), 0) && unchanged(), "an empty list writes nothing");
    check(accepted(decode(0, sizeof list), 0) && unchanged(), "an empty log writes nothing");
    check(refused(encode_to_null(1), RDRAM_REFUSED_LENGTH, 0), "1 byte, null log");
    check(refused(decode_to_null(1), RDRAM_REFUSED_LENGTH, 0), "1 byte, null list");
    use(512, 128, 5);
    make_list(1);
    check(refused(encode_to_null(RECORD), RDRAM_REFUSED_FULL, 0), "null log");
    make_log(1);
    check(refused(decode_to_null(BLOCK), RDRAM_REFUSED_FULL, 0), "null list");
}

static uint8_t wanted[sizeof block_log];

/* The log is as expected, its tail and the list are unchanged. */
static int encodes(size_t records, size_t log_len)
{
    size_t blocks = blocks_for(records);
    fill(block_log, sizeof block_log);
    make_list(records);
    memcpy(wanted, block_log, sizeof block_log);
    put_log(wanted, list, records);
    rdram_copied answer = encode(RECORD * records, log_len);
    return accepted(answer, blocks) && memcmp(block_log, wanted, sizeof block_log) == 0 && STAYS(list);
}

/* The list is as expected, its tail and the log are unchanged. */
static int decodes(size_t records, size_t list_len)
{
    make_list(records);
    memcpy(wanted, list, sizeof list);
    make_log(records);
    rdram_copied answer = decode(BLOCK * blocks_for(records), list_len);
    return accepted(answer, records) && memcmp(list, wanted, sizeof list) == 0 && STAYS(block_log);
}

void test_round_trip(void)
{
    use(512, 128, 5);
    for (size_t records = 0; records <= MOST; records++) {
        check(encodes(records, BLOCK * blocks_for(records)), "%zu records into a log of just their size", records);
        check(encodes(records, sizeof block_log), "%zu records into a longer log", records);
        check(decodes(records, RECORD * records), "%zu records out, into a list of just their size", records);
        check(decodes(records, sizeof list), "%zu records out, into a longer list", records);
    }
}

void test_31_records(void)
{
    uint8_t first[31 * RECORD];
    use(512, 128, 5);
    make_list(31);
    memcpy(first, list, sizeof first);
    check(accepted(encode(sizeof first, 3 * BLOCK), 3), "31 records make 3 blocks");
    check(get(block_log + 480, 4) == 0 && get(block_log + 484, 4) == 15, "block 0 has number 0 and 15 records");
    check(get(block_log + 1504, 4) == 2 && get(block_log + 1508, 4) == 1, "block 2 has number 2 and 1 record");
    fill(list, sizeof list);
    check(accepted(decode(3 * BLOCK, sizeof list), 31), "3 blocks make 31 records");
    check(memcmp(list, first, sizeof first) == 0, "the same 31 records");
}

void test_room(void)
{
    use(512, 128, 5);
    make_list(31);
    fill(block_log, sizeof block_log);
    int ok = 1;
    for (size_t room = 0; room < 3 * BLOCK; room++)
        ok &= refused(encode(31 * RECORD, room), RDRAM_REFUSED_FULL, 0);
    check(ok, "31 records into a log of fewer than 3 blocks");
    ok = 1;
    for (size_t room = 3 * BLOCK; room <= sizeof block_log; room++)
        ok &= encodes(31, room);
    check(ok, "31 records into a log of 3 blocks and a tail");
    make_log(31);
    ok = 1;
    for (size_t room = 0; room < 31 * RECORD; room++)
        ok &= refused(decode(3 * BLOCK, room), RDRAM_REFUSED_FULL, 0);
    check(ok, "31 records out, into a shorter list");
    ok = 1;
    for (size_t room = 31 * RECORD; room <= 32 * RECORD + 5; room++)
        ok &= decodes(31, room);
    check(ok, "31 records out, into a list and a tail");
}

void test_any_instant(void)
{
    static const uint32_t INSTANTS[] = {0, 3, 1000000001u, UINT32_MAX};
    use(512, 128, 5);
    for (size_t i = 0; i < 4; i++) {
        make_list(4);
        for (size_t record = 0; record < 4; record++)
            put(list + RECORD * record, INSTANTS[i], 4);
        memcpy(wanted, list, 4 * RECORD);
        int ok = accepted(encode(4 * RECORD, BLOCK), 1);
        fill(list, sizeof list);
        ok = ok && accepted(decode(BLOCK, 4 * RECORD), 4);
        check(ok && memcmp(list, wanted, 4 * RECORD) == 0, "instant %" PRIu32 " is kept", INSTANTS[i]);
    }
}
