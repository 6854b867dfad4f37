/* Lengths, settings, words and blocks, and which refusal comes first. */
#include "test_check.h"

void test_empty(void)
{
    use_set_h();
    remember();
    check(is(rdram_check(settings, sizeof settings, NULL, 0), 0, 0, 0), "null list of length 0");
    check(is(rdram_check_log(settings, sizeof settings, NULL, 0), 0, 0, 0), "null log of length 0");
    check(list_is(0, 0, 0, 0), "empty list");
    check(log_is(0, 0, 0, 0), "empty log");
}

void test_lengths(void)
{
    use_list("4 ACT 0, 12 RD 0");
    int ok = 1;
    for (size_t length = 0; length <= 2 * RECORD; length++)
        if (length % RECORD != 0)
            ok &= list_is(length, RDRAM_REFUSED_LENGTH, 0, 0);
    check(ok, "lists that are not whole records");
    make_log();
    ok = 1;
    for (size_t length = 0; length <= 2 * BLOCK; length++)
        if (length % BLOCK != 0)
            ok &= log_is(length, RDRAM_REFUSED_LENGTH, 0, 0);
    check(ok, "logs that are not whole blocks");
}

void test_settings(void)
{
    use_list("4 ACT 0, 13 RD 0");
    size_t length = make_log();
    for (int figure = 0; figure < 16; figure++) {
        use_bad_figure(figure);
        check(list_is(2 * RECORD, RDRAM_REFUSED_SETTINGS, 0, 0), "list, settings number %d", figure);
        check(log_is(length, RDRAM_REFUSED_SETTINGS, 0, 0), "log, settings number %d", figure);
        check(list_is(1, RDRAM_REFUSED_SETTINGS, 0, 0), "settings number %d before the length", figure);
    }
    use_set_h();
    remember();
    check(is(rdram_check(settings, 31, list, RECORD), RDRAM_REFUSED_SETTINGS, 0, 0), "settings of 31 bytes");
    check(is(rdram_check(NULL, 0, list, RECORD), RDRAM_REFUSED_SETTINGS, 0, 0), "null settings");
    check(is(rdram_check_log(NULL, 0, block_log, BLOCK), RDRAM_REFUSED_SETTINGS, 0, 0), "null settings, log");
}

void test_word_before_rule(void)
{
    use_list("4 ACT 0, 13 RD 0, 17 RD 0, 18 RD 0, 22 RD 0, 26 RD 0, 30 RD 0, 34 RD 0, 38 RD 0");
    check(both_are(RDRAM_REFUSED_RULE, 3, 3), "a broken rule at record 3");
    list[RECORD * 7 + 8] ^= 1;
    check(both_are(RDRAM_REFUSED_WORD, 0, 7), "a bad word at record 7 before it");
    size_t length = make_log();
    block_log[500] = 1;
    check(log_is(length, RDRAM_REFUSED_BLOCK, 0, 0), "a bad block before both");
    check(log_is(length - 1, RDRAM_REFUSED_LENGTH, 0, 0), "the length before the block");
}

/* ACT and 30 RD: record 30 is the only one of block 2. */
void test_31_records(void)
{
    char line[40];
    use_list("4 ACT 0");
    for (int i = 0; i < 30; i++) {
        snprintf(line, sizeof line, "%d RD 0 1", 13 + 4 * i);
        add(line);
    }
    check(both_are(0, 0, 0), "31 records pass");
    list[RECORD * 30]--;
    check(both_are(RDRAM_REFUSED_RULE, 3, 30), "record 30 breaks rule 3");
    list[RECORD * 17 + 10] ^= 2; /* COP 2 */
    check(both_are(RDRAM_REFUSED_WORD, 0, 17), "record 17 has no packet");
    make_log();
    block_log[2 * BLOCK + 484] = 2;
    seal(block_log + 2 * BLOCK);
    check(log_is(3 * BLOCK, RDRAM_REFUSED_WORD, 0, 17), "the first bad record, not the last");
    block_log[BLOCK + 480] = 0;
    seal(block_log + BLOCK);
    check(log_is(3 * BLOCK, RDRAM_REFUSED_BLOCK, 0, 1), "block 1 has number 0");
}
