/* Lengths, settings, records and null pointers that are refused, and which refusal comes first. */
#include "test_model.h"

/* A call with these lengths is refused with this number, and no buffer changed. */
static int refuses_lengths(uint32_t number, size_t settings_len, size_t model_len, size_t store_len, size_t record_len)
{
    remember();
    rdram_stepped got = rdram_model_step(settings, settings_len, model, model_len, store, store_len, record, record_len,
                                         answer, 0);
    return is(got, number, 0, 0, 0) && unchanged();
}

void test_lengths(void)
{
    int ok = 1;
    run("4 ACT 0");
    use_record("13 RD 0");
    for (size_t length = 0; length < sizeof model; length++)
        if (length != MODEL)
            ok &= refuses_lengths(RDRAM_REFUSED_SETTINGS, 32, length, STORE, RECORD);
    check(ok, "models of another length");
    ok = 1;
    for (size_t length = 0; length < sizeof store; length++)
        if (length != STORE)
            ok &= refuses_lengths(RDRAM_REFUSED_STORE, 32, MODEL, length, RECORD);
    check(ok, "stores of another length");
    ok = 1;
    for (size_t length = 0; length < sizeof record; length++)
        if (length != RECORD)
            ok &= refuses_lengths(RDRAM_REFUSED_LENGTH, 32, MODEL, STORE, length);
    check(ok, "records of another length");
    ok = 1;
    for (size_t length = 0; length < DUALOCT; length++)
        ok &= refuses(RDRAM_REFUSED_FULL, 0, length);
    check(ok, "too few answer bytes");
    ok = is(step(DUALOCT + 7), 0, 0, RDRAM_EVENT_READ, 0) && read_right() && guards_stay();
    check(ok, "the same record again");
}

void test_order(void)
{
    run("4 ACT 0");
    use_record("12 RD 0"); /* rule 10, and no room */
    check(refuses(RDRAM_REFUSED_RULE, 10, 0), "11 before 8");
    record[5] = 1;
    check(refuses(RDRAM_REFUSED_WORD, 0, 0), "10 before 11");
    check(refuses_lengths(RDRAM_REFUSED_LENGTH, 32, MODEL, STORE, RECORD - 1), "13 before 10");
    check(refuses_lengths(RDRAM_REFUSED_STORE, 32, MODEL, STORE - 1, RECORD - 1), "9 before 13");
    check(refuses_lengths(RDRAM_REFUSED_SETTINGS, 32, MODEL - 1, STORE - 1, RECORD - 1), "1 before 9");
    check(refuses_lengths(RDRAM_REFUSED_SETTINGS, 31, MODEL, STORE - 1, RECORD - 1), "settings of 31 bytes");
    for (int figure = 0; figure < 16; figure++) {
        use_bad_figure(figure);
        check(refuses_lengths(RDRAM_REFUSED_SETTINGS, 32, MODEL, STORE, RECORD), "settings number %d", figure);
    }
}

/* Each byte of a record that must be 0. */
void test_spare_bytes(void)
{
    static const char *const LINES[] = {"13 RD 0", "24 PRER 0", "11 D"};
    for (int line = 0; line < 3; line++)
        for (int byte = 5; byte < 32; byte++)
            if (byte < 8 || (byte >= 13 && (line < 2 || byte < 16))) {
                run("4 ACT 0");
                use_record(LINES[line]);
                record[byte] ^= 0x40;
                check(refuses(RDRAM_REFUSED_WORD, 0, DUALOCT), "%s, byte %d", LINES[line], byte);
            }
    for (int kind = 3; kind < 256; kind++) {
        use_record("11 D");
        record[4] = (uint8_t)kind;
        check(refuses(RDRAM_REFUSED_WORD, 0, DUALOCT), "record kind %d", kind);
    }
}

void test_null_pointers(void)
{
    begin();
    use_record("4 ACT 0");
    remember();
    rdram_stepped got = rdram_model_step(settings, 32, model, MODEL, store, STORE, record, RECORD, NULL, 0);
    check(is(got, 0, 0, 0, 0) && guards_stay(), "null answer for an ACT");
    use_record("13 RD 0");
    got = rdram_model_step(settings, 32, model, MODEL, store, STORE, record, RECORD, NULL, 0);
    check(is(got, RDRAM_REFUSED_FULL, 0, 0, 0), "null answer for an RD");
    got = rdram_model_step(settings, 32, model, MODEL, store, STORE, NULL, 0, NULL, 0);
    check(is(got, RDRAM_REFUSED_LENGTH, 0, 0, 0), "null record");
    got = rdram_model_step(settings, 32, model, MODEL, NULL, 0, record, RECORD, NULL, 0);
    check(is(got, RDRAM_REFUSED_STORE, 0, 0, 0), "null store");
    got = rdram_model_step(settings, 32, NULL, 0, store, STORE, record, RECORD, NULL, 0);
    check(is(got, RDRAM_REFUSED_SETTINGS, 0, 0, 0), "null model");
    got = rdram_model_step(NULL, 0, model, MODEL, store, STORE, record, RECORD, NULL, 0);
    check(is(got, RDRAM_REFUSED_SETTINGS, 0, 0, 0), "null settings");
}
