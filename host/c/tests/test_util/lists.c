/* Records, texts and lines, of single packets and of the bench runs. */
#include "test_util.h"

/* ---- Texts ---- */

static void distinct(const char *what, const char *(*text)(uint32_t), uint32_t count)
{
    for (uint32_t i = 0; i <= count; i++) {
        int ok = text(i)[0] != 0;
        for (uint32_t k = 0; k < i; k++)
            ok &= strcmp(text(i), text(k)) != 0 || (i == count && k == 0);
        check(ok, "%s %" PRIu32 ": %s", what, i, text(i));
    }
    check(strcmp(text(count), text(UINT32_MAX)) == 0, "%s above the last", what);
}

/* .ci/declared compares their order with words of theirs. */
void test_texts(void)
{
    distinct("refusal", rdram_refusal_text, RDRAM_REFUSED_STAMP + 1);
    distinct("rule", rdram_rule_text, 18);
    distinct("command", rdram_command_name, RDRAM_RDA + 1);
}

/* ---- Records and lines of single packets ---- */

/* A record of a line of document 01, taken apart and put together again, and its packet by the library. */
static void same_record(const uint8_t *record, const char *text)
{
    uint8_t back[RECORD];
    rdram_record of = rdram_record_get(record);
    fill(back, sizeof back);
    rdram_record_put(back, &of);
    check(memcmp(back, record, RECORD) == 0 && memcmp(of.data, record + 16, sizeof of.data) == 0,
          "a record taken apart and put together: %s", text);
    rdram_packet ours = rdram_packet_get(record, settings);
    rdram_packet theirs = rdram_word_decode(settings, sizeof settings, of.kind, of.word);
    check(memcmp(&ours, &theirs, sizeof ours) == 0 && (ours.number != 0) == (of.kind == RDRAM_KIND_D), "the packet of %s", text);
    if (ours.number != RDRAM_OK)
        return;
    fill(back, sizeof back);
    check(rdram_packet_put(back, settings, of.instant, ours.command, ours.bank, ours.place, ours.mask) == RDRAM_OK
              && memcmp(back, record, RECORD) == 0, "the record of %s", text);
}

/* Lines as the listing prints them, in an order in which the D follows a WRA. */
void test_lines(void)
{
    static const char *const TEXTS[] = {
        "4 ACT 31 1 -", "1000000000 PRER 7 0 -", "5 REFA 3 0 -", "6 REFP 3 0 -", "7 D 0 0 -", "0 NOCOP 0 0 -", "8 NOCOP 0 0 0000",
        "9 WR 2 3 -", "15 D 2 3 -", "10 RD 4 1 -", "16 D 2 3 -", "4294967295 WRA 31 2 fffe", "17 D 31 2 -", "11 RDA 1 0 a5c3"};
    uint8_t record[RECORD], kept[RECORD];
    char line[RDRAM_LINE_BYTES];
    rdram_lines lines = {0, 0};
    use_set_h();
    for (size_t i = 0; i < COUNT(TEXTS); i++) {
        if (put_line(record, TEXTS[i]))
            fill(record + 16, RDRAM_DUALOCT_BYTES);
        same_record(record, TEXTS[i]);
        memset(line, 'x', sizeof line);
        size_t length = rdram_line(&lines, settings, record, line);
        check(strcmp(line, TEXTS[i]) == 0 && length == strlen(TEXTS[i]), "%s is listed as %s", TEXTS[i], line);
    }
    /* a row that is not below rows has no record, and no line */
    memcpy(kept, record, RECORD);
    check(rdram_packet_put(record, settings, 4, RDRAM_ACT, 0, 2, 0) == RDRAM_REFUSED_ROW && memcmp(kept, record, RECORD) == 0,
          "a refused packet leaves the record");
    put_line(record, "4 ACT 0 2");
    check(rdram_line(&lines, settings, record, line) == 0 && line[0] == 0, "the line of a record without coding");
}

/* ---- Bench runs ---- */

static uint8_t requests[65600];
static char listed[200000], wanted[sizeof listed];

static size_t read_file(const char *run, const char *name, void *to, size_t size)
{
    char path[64];
    snprintf(path, sizeof path, "host/runs/%s/%s", run, name);
    FILE *file = fopen(path, "rb");
    size_t length = file ? fread(to, 1, size, file) : 0;
    check(file != NULL && length < size, "%s can be read", path);
    if (file)
        fclose(file);
    return length;
}

/* The listing of some requests, as document 01 has it; answers its length. */
static size_t list_requests(size_t length)
{
    char *to = listed;
    uint64_t records = 0;
    rdram_lines lines = {0, 0};
    begin();
    if (length % sizeof request != 0 || length > 65520)
        return (size_t)sprintf(listed, "refused 13\nrecords 0\n");
    for (size_t at = 0; at < length; at += sizeof request) {
        memcpy(request, requests + at, sizeof request);
        rdram_planned made = plan();
        if (made.number != RDRAM_OK)
            to += sprintf(to, "refused %" PRIu32 "\n", made.number);
        for (uint64_t k = 0; k < made.records; k++) {
            to += rdram_line(&lines, settings, room + k * RECORD, to);
            *to++ = '\n';
        }
        records += made.records;
    }
    to += sprintf(to, "records %" PRIu64 "\n", records);
    return (size_t)(to - listed);
}

/* The lines of each bench run are those that the listing program printed. */
void test_runs(void)
{
    static const char *const RUNS[] = {"1", "14_15", "15_16", "bank_limit", "broken", "closing", "empty", "largest", "mask_0",
                                       "other_row", "refreshes", "too_many", "two_writes", "wait"};
    for (size_t i = 0; i < COUNT(RUNS); i++) {
        size_t length = read_file(RUNS[i], "stdin", requests, sizeof requests);
        size_t ours = list_requests(length), theirs = read_file(RUNS[i], "stdout", wanted, sizeof wanted);
        check(ours == theirs && memcmp(listed, wanted, ours) == 0, "lines of run %s", RUNS[i]);
    }
}
