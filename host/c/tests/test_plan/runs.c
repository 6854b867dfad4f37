/* Runs: requests and the list that they make, which passes the check. */
#include "test_plan.h"

typedef struct {
    const char *requests, *list;
} run;

/* Writes the records of a list; answers their number. */
static size_t expect_list(uint8_t *expected, const char *text)
{
    size_t count = 0;
    unsigned data = 0;
    for (const char *line = text; line; line = after_comma(line)) {
        uint8_t *record = expected + RECORD * count++;
        if (put_line(record, line))
            put_data(record + 16, data++);
    }
    return count;
}

static void test_list(const run *run)
{
    static uint8_t expected[sizeof list];
    size_t count = expect_list(expected, run->list);
    check(records == count && memcmp(list, expected, RECORD * count) == 0, "list of: %s", run->requests);
    check(list_passes(), "passes the check: %s", run->requests);
}

void test_runs(void)
{
    static const run RUNS[] = {
        {"read 0 0 1, write 0 0 1 0003, read 0 0 1, read 1 0 0, flush, close",
         "4 ACT 0 0, 13 RD 0 1, 19 WR 0 1, 25 D, 27 NOCOP 0 0 0003, 31 RD 0 1, 35 PRER 0, 43 ACT 1 0, 52 RD 1 0, "
         "63 PRER 1"},
        {"read 15, read 16", "4 ACT 15, 13 RD 15, 13 ACT 16, 22 RD 16"},
        {"read 14, read 15", "4 ACT 14, 13 RD 14, 24 PRER 14, 32 ACT 15, 41 RD 15"},
        {"write 0 0 0 FFFF, read 0 1 0", "4 ACT 0 0, 5 WR 0 0, 11 D, 13 NOCOP, 24 PRER 0, 32 ACT 0 1, 41 RD 0 0"},
        {"refresh, refresh", "4 REFA 0, 24 REFP 0, 32 REFA 1, 52 REFP 1"},
        {"write 0 0 0 0003, write 0 0 0 0006", "4 ACT 0, 5 WR 0 0, 11 D, 9 WR 0 0, 15 D"},
        {"read 31 1 3", "4 ACT 31 1, 13 RD 31 3"},
        {"write 0 0 0 0000, flush, close", "4 ACT 0, 5 WR 0, 11 D, 13 NOCOP 0 0 0000, 24 PRER 0"},
        /* Another column, and another bank: reads pass the buffer. */
        {"write 0 0 1 0003, read 0 0 2, read 2 0 1, flush, close",
         "4 ACT 0, 5 WR 0 1, 11 D, 13 RD 0 2, 13 ACT 2, 22 RD 2 1, 26 NOCOP 0 0 0003, 30 PRER 0, 38 PRER 2"},
        /* Open neighbours on both sides, one of them with the waiting write. */
        {"read 5, write 7 1 0 00F0, read 6",
         "4 ACT 5, 13 RD 5, 13 ACT 7 1, 19 WR 7 0, 25 D, 24 PRER 5, 27 NOCOP 0 0 00F0, 33 PRER 7, 41 ACT 6, 50 RD 6"},
        /* Flush and close: also where the write's bank is not the lowest. */
        {"read 0, write 2 0 0 0100, flush, close",
         "4 ACT 0, 13 RD 0, 13 ACT 2, 19 WR 2, 25 D, 27 NOCOP 0 0 0100, 27 PRER 0, 35 PRER 2"},
        /* Two writes wait: reads of the older's dualoct, of the newer's, and of another bank. */
        {"write 0 0 0 0003, write 0 0 1 0006, read 0 0 0, read 0 0 1",
         "4 ACT 0, 5 WR 0 0, 11 D, 9 WR 0 1, 15 D, 13 NOCOP 0 0 0003, 17 RD 0 0, 21 NOCOP 0 0 0006, 25 RD 0 1"},
        {"write 0 0 0 0003, write 0 0 1 FFFF, read 0 0 1",
         "4 ACT 0, 5 WR 0 0, 11 D, 9 WR 0 1, 15 D, 13 NOCOP 0 0 0003, 17 NOCOP, 21 RD 0 1"},
        {"write 0 0 0 0003, write 0 0 1 0006, read 4",
         "4 ACT 0, 5 WR 0 0, 11 D, 9 WR 0 1, 15 D, 12 ACT 4, 13 NOCOP 0 0 0003, 21 RD 4"},
        /* A PRER under the newer write, under the older, and under none. */
        {"read 0, write 4 0 0 0003, write 0 0 1 0006, read 0 1 1",
         "4 ACT 0, 13 RD 0, 13 ACT 4, 19 WR 4, 25 D, 23 WR 0 1, 29 D, 27 NOCOP 0 0 0003, 31 NOCOP 0 0 0006, "
         "35 PRER 0, 43 ACT 0 1, 52 RD 0 1"},
        {"read 0, write 4 0 0 0003, write 0 0 1 0006, write 4 1 1 000C",
         "4 ACT 0, 13 RD 0, 13 ACT 4, 19 WR 4, 25 D, 23 WR 0 1, 29 D, 27 NOCOP 0 0 0003, 33 PRER 4, 41 ACT 4 1, "
         "42 WR 4 1 0006, 48 D"},
        {"read 9, write 0 0 0 0003, write 0 0 1 0006, refresh",
         "4 ACT 9, 13 RD 9, 13 ACT 0, 19 WR 0, 25 D, 23 WR 0 1, 29 D, 27 NOCOP 0 0 0003, 31 NOCOP 0 0 0006, "
         "35 PRER 0, 43 REFA 0, 63 REFP 0"},
        /* A flush retires both. */
        {"read 0, write 4 0 0 FFFF, write 4 0 0 0100, flush, close",
         "4 ACT 0, 13 RD 0, 13 ACT 4, 19 WR 4, 25 D, 23 WR 4, 29 D, 27 NOCOP, 31 NOCOP 0 0 0100, 31 PRER 0, "
         "39 PRER 4"},
        /* A WR every tCC: from the third on each carries the mask of the last but one. */
        {"write 0 0 0 0003, write 0 0 1 0006, write 0 0 2 000C, write 0 0 3 0018",
         "4 ACT 0, 5 WR 0 0, 11 D, 9 WR 0 1, 15 D, 13 WR 0 2 0003, 19 D, 17 WR 0 3 0006, 23 D"},
        {"read 15, read 16, close", "4 ACT 15, 13 RD 15, 13 ACT 16, 22 RD 16, 24 PRER 15, 33 PRER 16"},
        /* A refresh closes as a read does. */
        {"read 1, refresh", "4 ACT 1, 13 RD 1, 24 PRER 1, 32 REFA 0, 52 REFP 0"},
        {"wait 10, read 0, wait 0, wait 100, close", "14 ACT 0, 23 RD 0, 123 PRER 0"},
    };
    for (size_t i = 0; i < COUNT(RUNS); i++) {
        check(plan_all(RUNS[i].requests), "accepted: %s", RUNS[i].requests);
        test_list(&RUNS[i]);
    }
}

/* Read and close, write and close. */
void test_closing_runs(void)
{
    static const run RUNS[] = {
        {"reada 0", "4 ACT 0, 20 RDA 0"},
        {"writea 0 0 0 FFFF", "4 ACT 0, 5 WRA 0, 11 D, 20 NOCOP"},
        /* The next ACT: at the implied PRER, or tRP after it for the bank and its neighbours. */
        {"writea 0 0 0 FFFF, read 4", "4 ACT 0, 5 WRA 0, 11 D, 20 NOCOP, 24 ACT 4, 33 RD 4"},
        {"writea 0 0 0 FFFF, read 0 1", "4 ACT 0, 5 WRA 0, 11 D, 20 NOCOP, 32 ACT 0 1, 41 RD 0"},
        {"reada 14, read 15", "4 ACT 14, 20 RDA 14, 32 ACT 15, 41 RD 15"},
        {"reada 15, read 16", "4 ACT 15, 20 RDA 15, 24 ACT 16, 33 RD 16"},
        {"reada 0, refresh", "4 ACT 0, 20 RDA 0, 32 REFA 0, 52 REFP 0"},
        {"reada 0, reada 4, reada 8", "4 ACT 0, 20 RDA 0, 24 ACT 4, 40 RDA 4, 44 ACT 8, 60 RDA 8"},
        /* A closing write before and after the waiting one is due. */
        {"write 0 0 0 0003, writea 0 0 1 FFFF",
         "4 ACT 0, 5 WR 0 0, 11 D, 9 WRA 0 1, 15 D, 13 NOCOP 0 0 0003, 20 NOCOP"},
        {"write 0 0 0 0003, wait 8, writea 0 0 1 FFFF",
         "4 ACT 0, 5 WR 0 0, 11 D, 13 WRA 0 1 0003, 19 D, 21 NOCOP"},
        /* NOCOPs before an RDA: for a write in its bank, of another column too, and for the older of two elsewhere. */
        {"write 0 0 0 0003, reada 0 0 1", "4 ACT 0, 5 WR 0 0, 11 D, 13 NOCOP 0 0 0003, 20 RDA 0 1"},
        {"read 0, write 4 0 0 0003, write 4 0 1 0006, reada 0",
         "4 ACT 0, 13 RD 0, 13 ACT 4, 19 WR 4, 25 D, 23 WR 4 1, 29 D, 27 NOCOP 0 0 0003, 31 RDA 0"},
        {"read 0, write 0 0 0 0003, write 0 0 1 0006, reada 0 0 2",
         "4 ACT 0, 13 RD 0, 19 WR 0, 25 D, 23 WR 0 1, 29 D, 27 NOCOP 0 0 0003, 31 NOCOP 0 0 0006, 35 RDA 0 2"},
        /* The bank is closed: a close has the others left, at tPP after the implied PRER. */
        {"read 0, reada 0, close", "4 ACT 0, 13 RD 0, 20 RDA 0"},
        {"read 0, read 4, reada 0, close", "4 ACT 0, 13 RD 0, 13 ACT 4, 22 RD 4, 26 RDA 0, 38 PRER 4"},
        /* Eight records: both neighbours open, each with a waiting write. */
        {"read 5, read 7, write 5 0 0 0003, write 7 0 0 0006, writea 6 1 2 000C",
         "4 ACT 5, 13 RD 5, 13 ACT 7, 22 RD 7, 28 WR 5, 34 D, 32 WR 7, 38 D, 36 NOCOP 0 0 0003, 40 PRER 5, "
         "40 NOCOP 0 0 0006, 48 PRER 7, 56 ACT 6 1, 57 WRA 6 2, 63 D, 72 NOCOP 0 0 000C"},
    };
    for (size_t i = 0; i < COUNT(RUNS); i++) {
        check(plan_all(RUNS[i].requests), "accepted: %s", RUNS[i].requests);
        test_list(&RUNS[i]);
    }
}

/* Set H with one or two other timings, which then decide. */
void test_timings(void)
{
    static const struct {
        int figure, value, second, second_value;
        run run;
    } RUNS[] = {
        {0, 64, 0, 64, {"read 0 0, read 0 1", "4 ACT 0 0, 13 RD 0, 24 PRER 0, 68 ACT 0 1, 77 RD 0"}}, /* tRC */
        {0, 64, 0, 64, {"read 0, read 1", "4 ACT 0, 13 RD 0, 24 PRER 0, 68 ACT 1, 77 RD 1"}},
        {4, 30, 4, 30, {"read 0, read 2", "4 ACT 0, 13 RD 0, 34 ACT 2, 43 RD 2"}}, /* tRR */
        {4, 30, 4, 30, {"refresh, read 9", "4 REFA 0, 24 REFP 0, 34 ACT 9, 43 RD 9"}},
        /* tPP */
        {3, 40, 3, 40, {"read 0, read 2, close", "4 ACT 0, 13 RD 0, 13 ACT 2, 22 RD 2, 24 PRER 0, 64 PRER 2"}},
        /* tRCD below tRTR: a WR at the instant of its ACT */
        {5, 4, 6, 20, {"write 0 0 0 1, write 0 0 1 2", "4 ACT 0, 4 WR 0, 10 D, 8 WR 0 1, 14 D"}},
        /* tRTR above tCC twice: a third WR waits for the first write */
        {5, 4, 6, 20,
         {"write 0 0 0 1, write 0 0 1 2, write 0",
          "4 ACT 0, 4 WR 0, 10 D, 8 WR 0 1, 14 D, 24 WR 0 0 0001, 30 D"}},
        /* tCC not below tRTR: each WR retires the write before it */
        {9, 8, 9, 8, {"write 0 0 0 1, write 0 0 1 2", "4 ACT 0, 5 WR 0, 11 D, 13 WR 0 1 0001, 19 D"}},
        /* tRTR below tCWD: a retire before the instant of its D */
        {6, 4, 5, 4, {"write 0 0 0 1, read 0 0 0", "4 ACT 0, 4 WR 0, 10 D, 8 NOCOP 0 0 0001, 12 RD 0"}},
        {10, 12, 11, 1, {"read 0, write 0 0 0 1", "4 ACT 0, 13 RD 0, 28 WR 0, 29 D"}}, /* tCAC, tCWD */
        {7, 30, 7, 30, {"read 0, close", "4 ACT 0, 13 RD 0, 43 PRER 0"}}, /* tRDP */
        {8, 30, 8, 30, {"write 0, flush, close", "4 ACT 0, 5 WR 0, 11 D, 13 NOCOP 0 0 0000, 43 PRER 0"}}, /* tRTP */
        /* tOFFP: the implied PRER later, so that RDA and NOCOP are earlier and the next ACT later */
        {T_OFFP, 32, T_OFFP, 32, {"reada 0, read 4", "4 ACT 0, 13 RDA 0, 45 ACT 4, 54 RD 4"}},
        {T_OFFP, 32, T_OFFP, 32, {"writea 0, read 0", "4 ACT 0, 5 WRA 0, 11 D, 13 NOCOP 0 0 0000, 53 ACT 0, 62 RD 0"}},
        {T_OFFP, 11, T_OFFP, 11, {"reada 0", "4 ACT 0, 13 RDA 0"}},
        {T_OFFP, 10, T_OFFP, 10, {"reada 0", "4 ACT 0, 14 RDA 0"}},
        /* what an implied PRER keeps: tRAS, tRP, tPP, and tRDP and tRTP but from its own read or retire */
        {1, 64, 1, 64, {"reada 0", "4 ACT 0, 64 RDA 0"}},
        {1, 64, 1, 64, {"writea 0", "4 ACT 0, 5 WRA 0, 11 D, 64 NOCOP 0 0 0000"}},
        {2, 30, 2, 30, {"reada 0, read 0 1", "4 ACT 0, 20 RDA 0, 54 ACT 0 1, 63 RD 0"}},
        {3, 40, 3, 40, {"reada 0, reada 4", "4 ACT 0, 20 RDA 0, 24 ACT 4, 60 RDA 4"}},
        {7, 64, 7, 64, {"reada 0", "4 ACT 0, 20 RDA 0"}},
        {7, 64, 7, 64, {"read 0, reada 0", "4 ACT 0, 13 RD 0, 73 RDA 0"}},
        {8, 64, 8, 64, {"writea 0", "4 ACT 0, 5 WRA 0, 11 D, 20 NOCOP 0 0 0000"}},
        {8, 30, 8, 30,
         {"write 0, wait 8, writea 0", "4 ACT 0, 5 WR 0, 11 D, 13 WRA 0 0 0000, 19 D, 39 NOCOP 0 0 0000"}},
        {8, 30, 8, 30, {"write 0, reada 0", "4 ACT 0, 5 WR 0, 11 D, 13 NOCOP 0 0 0000, 39 RDA 0"}},
    };
    for (size_t i = 0; i < COUNT(RUNS); i++) {
        begin();
        use_figure(RUNS[i].figure, (unsigned)RUNS[i].value);
        use_figure(RUNS[i].second, (unsigned)RUNS[i].second_value);
        check(plan_more(RUNS[i].run.requests), "accepted, timing %d: %s", RUNS[i].figure, RUNS[i].run.requests);
        test_list(&RUNS[i].run);
    }
}

/* The refresh bank rises and starts again. */
void test_refresh_banks(void)
{
    begin();
    for (unsigned i = 0; i < 34; i++) {
        use_request("refresh");
        int ok = accepts(2 * RECORD);
        uint64_t bank = get(list + RECORD * (records - 1) + 8, 8) >> 13 & 31;
        check(ok && bank == i % 32 && get(planner + 756, 2) == (i + 1) % 32, "refresh %u", i);
    }
    check(list_passes(), "refreshes pass the check");
}

/* Set H under each core form. */
void test_cores(void)
{
    static const struct {
        unsigned core;
        run run;
    } RUNS[] = {
        {0, {"read 15, read 16", "4 ACT 15, 13 RD 15, 13 ACT 16, 22 RD 16"}},
        {1, {"read 15, read 16", "4 ACT 15, 13 RD 15, 24 PRER 15, 32 ACT 16, 41 RD 16"}},
        {2, {"read 15, read 16", "4 ACT 15, 13 RD 15, 13 ACT 16, 22 RD 16"}},
        /* an implied PRER and a neighbour */
        {1, {"reada 15, read 16", "4 ACT 15, 20 RDA 15, 32 ACT 16, 41 RD 16"}},
        {2, {"reada 0, read 1", "4 ACT 0, 20 RDA 0, 24 ACT 1, 33 RD 1"}},
        /* a refresh beside an open neighbour */
        {0, {"read 1, refresh", "4 ACT 1, 13 RD 1, 24 PRER 1, 32 REFA 0, 52 REFP 0"}},
        {1, {"read 1, refresh", "4 ACT 1, 13 RD 1, 24 PRER 1, 32 REFA 0, 52 REFP 0"}},
        {2, {"read 1, refresh", "4 ACT 1, 13 RD 1, 13 REFA 0, 33 REFP 0"}},
        /* a write between two open neighbours, and another row of its own bank */
        {1,
         {"read 15, read 17, write 16 1 2 0003, flush, close",
          "4 ACT 15, 13 RD 15, 13 ACT 17, 22 RD 17, 24 PRER 15, 33 PRER 17, 41 ACT 16 1, 42 WR 16 2, 48 D, "
          "50 NOCOP 0 0 0003, 61 PRER 16"}},
        {2,
         {"read 15, read 17, write 16 1 2 0003, flush, close",
          "4 ACT 15, 13 RD 15, 13 ACT 17, 22 RD 17, 22 ACT 16 1, 28 WR 16 2, 34 D, 36 NOCOP 0 0 0003, 36 PRER 15, "
          "44 PRER 16, 52 PRER 17"}},
        {2, {"read 0, read 1, read 0 1",
             "4 ACT 0, 13 RD 0, 13 ACT 1, 22 RD 1, 24 PRER 0, 32 ACT 0 1, 41 RD 0"}},
    };
    for (size_t i = 0; i < COUNT(RUNS); i++) {
        begin();
        use_core(RUNS[i].core);
        check(plan_more(RUNS[i].run.requests), "accepted, core form %u: %s", RUNS[i].core, RUNS[i].run.requests);
        test_list(&RUNS[i].run);
    }
}

/* As many open banks as may be: a PRER for each. Two waiting writes are flushed before. */
static void test_longest_close(unsigned core)
{
    unsigned step = core == RDRAM_CORE_INDEPENDENT ? 1 : 2, most = core == RDRAM_CORE_INDEPENDENT ? 32 : 16;
    char text[40];
    begin();
    use_core(core);
    for (unsigned bank = 0; bank < 32; bank += step) {
        snprintf(text, sizeof text, "%s %u", bank + step == 32 ? "write" : "read", bank);
        use_request(text);
        check(accepts(3 * RECORD), "%s", text);
    }
    use_request(text);
    check(accepts(2 * RECORD), "a second write");
    use_request("close");
    check(refuses(RDRAM_REFUSED_UNRETIRED, PLANNER, REQUEST, ROOM), "a close while two writes wait");
    use_request("flush");
    size_t before = records;
    check(refuses(RDRAM_REFUSED_FULL, PLANNER, REQUEST, 2 * RECORD - 1), "a flush with too little room");
    check(accepts(2 * RECORD) && records == before + 2 && accepts(0) && records == before + 2, "a flush, and another");
    use_request("close");
    int ok = 1;
    for (size_t length = 0; length < most * RECORD; length++)
        ok &= refuses(RDRAM_REFUSED_FULL, PLANNER, REQUEST, length);
    check(ok, "rooms for fewer than %u records", most);
    before = records;
    check(accepts(ROOM + 31) && records == before + most, "%u records", most);
    check(list_passes(), "they pass the check");
    check(accepts(0) && records == before + most, "nothing left to close");
}

void test_most_records(void)
{
    for (unsigned core = 0; core < CORES; core++)
        test_longest_close(core);
}

/* A close looks at the banks up to the last open one; other requests look at none. Refusals: `refuses`. */
void test_banks(void)
{
    static const struct {
        const char *text;
        uint32_t banks;
    } BANKS[] = {
        {"close", 0}, {"read 0, close", 1}, {"read 31, close", 32}, {"read 9, read 2, close", 10},
        {"read 0 0 1, read 1, close", 2}, {"read 0, read 31, close", 32}, {"read 31, close, close", 0},
        {"read 31, read 31", 0}, {"read 31, write 31 0 0 0003", 0}, {"read 31, refresh", 0}, {"read 31, wait 1", 0},
        {"read 31, flush", 0}, {"wait 999999900, read 31, close", 32}};
    for (size_t i = 0; i < COUNT(BANKS); i++)
        check(plan_all(BANKS[i].text) && banks == BANKS[i].banks, "%" PRIu32 " banks of: %s", BANKS[i].banks, BANKS[i].text);
    /* a room that the records just fit */
    plan_all("read 31");
    use_request("close");
    check(refuses(RDRAM_REFUSED_FULL, PLANNER, REQUEST, RECORD - 1), "no room to close bank 31");
    check(accepts(RECORD) && banks == 32, "room for one record");
}
