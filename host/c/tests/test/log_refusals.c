/* Refusals of logs: lengths, damaged blocks, bad records, and which refusal comes first. */
#include "test.h"

void test_lengths(void)
{
    use(512, 128, 5);
    make_list(31);
    fill(block_log, sizeof block_log);
    int ok = 1;
    for (size_t length = 0; length <= 31 * RECORD; length++)
        if (length % RECORD != 0)
            ok &= refused(encode(length, sizeof block_log), RDRAM_REFUSED_LENGTH, 0);
    check(ok, "lists that are not whole records");
    make_log(31);
    ok = 1;
    for (size_t length = 0; length <= 3 * BLOCK; length++)
        if (length % BLOCK != 0)
            ok &= refused(decode(length, sizeof list), RDRAM_REFUSED_LENGTH, 0);
    check(ok, "logs that are not whole blocks");
}

void test_flipped_bytes(void)
{
    use(512, 128, 5);
    make_log(31);
    for (size_t block = 0; block < 3; block++) {
        int ok = 1;
        for (size_t at = BLOCK * block; at < BLOCK * (block + 1); at++) {
            block_log[at] ^= 0xFF;
            ok &= refused(decode(3 * BLOCK, sizeof list), RDRAM_REFUSED_BLOCK, block);
            block_log[at] ^= 0xFF;
            block_log[at] ^= 0x01;
            ok &= refused(decode(3 * BLOCK, sizeof list), RDRAM_REFUSED_BLOCK, block);
            block_log[at] ^= 0x01;
        }
        check(ok, "each byte of block %zu flipped", block);
    }
    check(accepted(decode(3 * BLOCK, sizeof list), 31), "the log is whole again");
}

/* A log of 31 records with one byte set, and the block sealed again. */
static rdram_copied decode_with(size_t at, int value)
{
    make_log(31);
    block_log[at] = (uint8_t)value;
    seal(block_log + at / BLOCK * BLOCK);
    return decode(3 * BLOCK, sizeof list);
}

void test_block_fields(void)
{
    use(512, 128, 5);
    check(refused(decode_with(480, 1), RDRAM_REFUSED_BLOCK, 0), "block 0 numbered 1");
    check(refused(decode_with(BLOCK + 483, 1), RDRAM_REFUSED_BLOCK, 1), "high byte of the number of block 1");
    check(refused(decode_with(484, 14), RDRAM_REFUSED_BLOCK, 0), "a count that leaves out a record");
    check(refused(decode_with(484, 0), RDRAM_REFUSED_BLOCK, 0), "count 0");
    check(refused(decode_with(484, 16), RDRAM_REFUSED_BLOCK, 0), "count 16");
    check(refused(decode_with(487, 1), RDRAM_REFUSED_BLOCK, 0), "high byte of the count");
    check(refused(decode_with(2 * BLOCK + 484, 0), RDRAM_REFUSED_BLOCK, 2), "count 0 in the last block");
    check(refused(decode_with(2 * BLOCK + 484, 2), RDRAM_REFUSED_WORD, 31), "a count raised over zero records");
    int ok = 1;
    for (size_t at = 488; at < 508; at++)
        ok &= refused(decode_with(BLOCK + at, 1), RDRAM_REFUSED_BLOCK, 1);
    check(ok, "each of the twenty zeros of block 1");
    ok = 1;
    for (size_t at = RECORD; at < 480; at++)
        ok &= refused(decode_with(2 * BLOCK + at, 1), RDRAM_REFUSED_BLOCK, 2);
    check(ok, "each byte of the unused records of block 2");
}

/* Blocks of right form but for their count, which is 0. */
void test_empty_blocks(void)
{
    use(512, 128, 5);
    make_log(0);
    memset(block_log, 0, BLOCK);
    check(refused(decode(BLOCK, sizeof list), RDRAM_REFUSED_BLOCK, 0), "a block of zeros");
    make_log(30);
    memset(block_log + 2 * BLOCK, 0, BLOCK);
    block_log[2 * BLOCK + 480] = 2;
    seal(block_log + 2 * BLOCK);
    check(refused(decode(3 * BLOCK, sizeof list), RDRAM_REFUSED_BLOCK, 2), "a last block without records");
}

void test_block_order(void)
{
    static uint8_t spare[BLOCK];
    use(512, 128, 5);
    make_log(31);
    memcpy(spare, block_log, BLOCK);
    memcpy(block_log, block_log + BLOCK, BLOCK);
    memcpy(block_log + BLOCK, spare, BLOCK);
    check(refused(decode(3 * BLOCK, sizeof list), RDRAM_REFUSED_BLOCK, 0), "blocks 0 and 1 exchanged");
    make_log(31);
    memcpy(block_log + BLOCK, block_log + 2 * BLOCK, BLOCK);
    check(refused(decode(2 * BLOCK, sizeof list), RDRAM_REFUSED_BLOCK, 1), "block 1 left out");
    make_log(14);
    memcpy(block_log + BLOCK, block_log, BLOCK);
    block_log[BLOCK + 480] = 1;
    seal(block_log + BLOCK);
    check(refused(decode(2 * BLOCK, sizeof list), RDRAM_REFUSED_BLOCK, 0), "a short block that is not the last");
    make_log(31);
    check(accepted(decode(2 * BLOCK, sizeof list), 30), "a log without its last block");
}

/* A record with one byte changed is refused 10 in list and log. */
static int bad_record(size_t record, size_t byte, int value)
{
    make_list(31);
    fill(block_log, sizeof block_log);
    list[RECORD * record + byte] = (uint8_t)value;
    size_t at = BLOCK * (record / 15) + RECORD * (record % 15) + byte;
    return refused(encode(31 * RECORD, sizeof block_log), RDRAM_REFUSED_WORD, record)
        && refused(decode_with(at, value), RDRAM_REFUSED_WORD, record);
}

void test_bad_records(void)
{
    use(512, 128, 5);
    for (size_t record = 0; record < 31; record++) {
        int ok = bad_record(record, 4, 3) && bad_record(record, 4, 255);
        for (size_t byte = 5; byte < 8; byte++)
            ok &= bad_record(record, byte, 1);
        for (size_t byte = 13; byte < 16; byte++)
            ok &= bad_record(record, byte, 1); /* above bit 39 of a word, or a D's word */
        for (size_t byte = 16; byte < RECORD && record % 4 != 3; byte++)
            ok &= bad_record(record, byte, 1);
        check(ok, "record %zu with a wrong byte", record);
    }
}

/* Where several refusals apply, the order of the paper decides. */
void test_order(void)
{
    use(512, 128, 5);
    make_list(31);
    fill(block_log, sizeof block_log);
    list[RECORD * 7 + 5] = list[RECORD * 20 + 5] = 1;
    check(refused(encode(31 * RECORD, 0), RDRAM_REFUSED_WORD, 7), "encode: the first bad record, before the room");
    check(refused(encode(31 * RECORD - 1, 0), RDRAM_REFUSED_LENGTH, 0), "encode: the length before a bad record");
    settings[0] = 3;
    check(refused(encode(31 * RECORD - 1, 0), RDRAM_REFUSED_SETTINGS, 0), "encode: the settings before the length");
    use(512, 128, 5);
    make_log(31);
    block_log[5] = block_log[BLOCK + 5] = 1;
    seal(block_log);
    check(refused(decode(3 * BLOCK, 0), RDRAM_REFUSED_BLOCK, 1), "decode: a bad block before an earlier bad record");
    seal(block_log + BLOCK);
    check(refused(decode(3 * BLOCK, 0), RDRAM_REFUSED_WORD, 0), "decode: the first bad record, before the room");
    check(refused(decode(3 * BLOCK - 1, 0), RDRAM_REFUSED_LENGTH, 0), "decode: the length before the blocks");
    settings[0] = 3;
    check(refused(decode(3 * BLOCK - 1, 0), RDRAM_REFUSED_SETTINGS, 0), "decode: the settings before the length");
}

/* Words that are right under other settings only. */
void test_other_settings(void)
{
    use(512, 128, 5);
    make_list(31);
    fill(block_log, sizeof block_log);
    use(512, 128, 6);
    check(refused(encode(31 * RECORD, sizeof block_log), RDRAM_REFUSED_WORD, 0), "encode under another device");
    make_log(31);
    check(refused(decode(3 * BLOCK, sizeof list), RDRAM_REFUSED_WORD, 0), "decode under another device");
    use(512, 6, 5); /* record 2 has column 6 */
    check(refused(decode(3 * BLOCK, sizeof list), RDRAM_REFUSED_WORD, 2), "decode under fewer columns");
    use(176, 128, 5); /* record 16 has row 176 */
    check(refused(decode(3 * BLOCK, sizeof list), RDRAM_REFUSED_WORD, 16), "decode under fewer rows");
}
