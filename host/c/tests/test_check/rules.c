/* Rules: runs of the paper, lists that pass, and lists whose last record breaks one rule or several. */
#include "test_check.h"

void test_runs(void)
{
    static const char *const RUNS[] = {
        ("4 ACT 0 0, 13 RD 0 1, 19 WR 0 1, 25 D, 27 NOCOP 0 0 0003, 31 RD 0 1, 35 PRER 0, 43 ACT 1 0, "
         "52 RD 1 0, 63 PRER 1"),
        "4 ACT 15, 13 RD 15, 13 ACT 16, 22 RD 16",
        "4 ACT 14, 13 RD 14, 24 PRER 14, 32 ACT 15, 41 RD 15",
        "4 ACT 0 0, 5 WR 0 0, 11 D, 13 NOCOP, 24 PRER 0, 32 ACT 0 1, 41 RD 0 0",
        "4 REFA 0, 24 REFP 0, 32 REFA 1, 52 REFP 1",
        "4 ACT 0, 5 WR 0 1, 11 D, 9 WR 0 1, 15 D",
    };
    for (size_t i = 0; i < COUNT(RUNS); i++) {
        use_list(RUNS[i]);
        check(both_are(0, 0, 0), "run of the paper passes: %s", RUNS[i]);
    }
}

void test_passing_lists(void)
{
    static const char *const LISTS[] = {
        "4 ACT 0",
        "1000000000 ACT 0",
        "4 ACT 0, 13 RD 0, 13 PRER 20",
        "999999900 ACT 0, 999999992 RD 0",
        "999999900 ACT 0, 999999994 WR 0, 1000000000 D",
        "4 ACT 0, 8 PRER 20",
        "4 ACT 0, 13 RD 0, 17 RD 0",
        "4 ACT 0, 12 ACT 20",
        "4 ACT 0, 24 PRER 0, 32 ACT 0",
        "4 ACT 15, 12 ACT 16",
        "4 ACT 0, 24 PRER 1",
        "4 ACT 0, 30 PRER 0, 38 ACT 0",
        "4 ACT 5, 30 PRER 6, 38 ACT 4",
        "30 PRER 6, 34 ACT 4",
        "4 PRER 0, 12 PRER 20",
        "4 ACT 0, 13 RD 0, 19 WR 0, 25 D",
        "4 ACT 0, 10 WR 0, 16 D, 18 NOCOP",
        "4 ACT 0, 21 RD 0, 25 PRER 0",
        "4 ACT 0, 13 WR 0, 19 D, 21 NOCOP, 25 PRER 1",
        "4 ACT 20, 13 WR 20, 19 D, 21 NOCOP, 22 PRER 0",
        "4 ACT 15, 13 WR 15, 19 D, 24 PRER 16",
        "4 NOCOP, 8 NOCOP",
        "4 ACT 0, 5 WR 0",
        "4 ACT 0, 13 WR 0, 19 D, 17 RD 0",
        "4 PRER 3, 12 REFP 3, 20 REFA 3, 40 PRER 3, 48 ACT 3, 68 REFP 3",
        "4 ACT 0, 12 ACT 20, 12 WR 0, 18 D",
        "4 ACT 0, 5 WR 0, 11 D, 13 NOCOP 0 0 0000",
        "4 ACT 0, 5 WR 0, 11 D, 9 PRER 20, 13 RD 0, 19 WR 0 2 8001, 25 D",
        "4 ACT 0, 5 WR 0 0, 11 D, 13 WR 0 1 0001, 19 D, 21 WR 0 2, 27 D, 29 NOCOP 0 0 FFFE",
        /* two writes wait */
        "4 ACT 0, 5 WR 0 1, 11 D, 13 WR 0 1 00F0, 19 D",
        "4 ACT 0, 10 WR 0, 16 D, 17 WR 0, 23 D",
        ("4 ACT 0, 5 WR 0 0, 11 D, 9 WR 0 1, 15 D, 13 WR 0 2 0003, 19 D, 17 WR 0 3, 23 D, 21 NOCOP, "
         "25 NOCOP 0 0 8000, 29 RD 0 3"),
        "4 ACT 0, 5 WR 0, 11 D, 9 WR 0, 15 D, 13 NOCOP, 17 RD 0",
        "4 ACT 0, 12 ACT 20, 14 WR 0, 20 D, 18 WR 20, 24 D, 22 NOCOP, 26 PRER 0",
        /* implied PRERs: by an RDA, by the retire of a WRA, and by both in turn */
        "4 ACT 0, 20 RDA 0",
        "4 ACT 0, 5 WRA 0, 11 D, 20 NOCOP",
        "4 ACT 0, 12 ACT 5, 14 WRA 0, 20 D, 28 RDA 5, 36 NOCOP",
        "999999900 ACT 0, 999999992 RDA 0",
        "999999900 ACT 0, 999999985 WRA 0, 999999991 D, 999999996 NOCOP",
        /* a ROW packet at the implied instant; ACT and PRER near; COL packets before it */
        "4 ACT 0, 20 RDA 0, 24 ACT 20",
        "4 ACT 0, 20 RDA 0, 32 ACT 0",
        "4 ACT 0, 20 RDA 0, 32 PRER 1",
        "4 ACT 0, 12 ACT 5, 28 RDA 5, 32 RD 0, 36 RDA 0",
        "4 PRER 20, 9 ACT 0, 25 RDA 0, 29 NOCOP",
        /* a WR that retires a WRA of another bank; writes beside and after others */
        "4 ACT 0, 12 ACT 20, 16 WRA 0, 22 D, 24 WR 20 1 0003, 30 D",
        "4 ACT 0, 5 WR 0, 11 D, 9 WRA 0, 15 D, 13 NOCOP 0 0 0003, 20 NOCOP",
        "4 ACT 0, 5 WR 0, 11 D, 13 WRA 0 0 0003, 19 D, 17 RD 0, 21 NOCOP",
    };
    for (size_t i = 0; i < COUNT(LISTS); i++) {
        use_list(LISTS[i]);
        check(both_are(0, 0, 0), "passes: %s", LISTS[i]);
    }
}

typedef struct {
    uint32_t rule;
    const char *text;
} broken_list;

/* The last record breaks the rule, and the list without it passes. */
static void test_broken_list(const broken_list *broken)
{
    use_list(broken->text);
    check(both_are(RDRAM_REFUSED_RULE, broken->rule, records - 1), "rule %" PRIu32 ": %s", broken->rule, broken->text);
    records--;
    check(both_are(0, 0, 0), "passes without the last record: %s", broken->text);
}

/* Rules broken alone. */
void test_single_rules(void)
{
    static const broken_list LISTS[] = {
        {1, "3 ACT 0"},
        {1, "0 NOCOP"},
        {1, "1000000001 ACT 0"},
        {1, "4294967295 NOCOP"},
        {1, "4 ACT 0, 13 RD 0, 12 PRER 20"},
        {1, "13 PRER 20, 12 NOCOP"},
        {1, "999999900 ACT 0, 999999993 RD 0"},
        {1, "999999900 ACT 0, 999999995 WR 0"},
        {2, "4 ACT 0, 7 PRER 20"},
        {2, "4 PRER 5, 4 ACT 20"},
        {3, "4 ACT 0, 13 RD 0, 16 RD 0"},
        {3, "4 NOCOP, 7 NOCOP"},
        {4, "4 ACT 0, 32 ACT 0"},
        {4, "4 ACT 0, 32 ACT 1"},
        {4, "4 ACT 1, 32 REFA 0"},
        {4, "4 REFA 0, 32 ACT 1"},
        {5, "4 ACT 0, 11 ACT 20"},
        {5, "4 REFA 15, 11 ACT 16"},
        {5, "4 ACT 0, 11 REFA 2"},
        {6, "4 ACT 0, 23 PRER 0"},
        {6, "4 ACT 0, 23 PRER 1"},
        {6, "4 REFA 1, 23 REFP 0"},
        {7, "4 ACT 0, 30 PRER 0, 37 ACT 0"},
        {7, "30 PRER 0, 37 ACT 1"},
        {7, "4 ACT 5, 30 PRER 6, 37 ACT 4"},
        {7, "4 REFA 5, 30 REFP 4, 37 REFA 6"},
        {8, "4 PRER 0, 11 PRER 20"},
        {8, "4 REFP 0, 11 PRER 0"},
        {9, "4 RD 0"},
        {9, "4 WR 0"},
        {9, "4 REFA 0, 40 RD 0"},
        {9, "4 ACT 0, 24 PRER 0, 40 WR 0"},
        {9, "4 ACT 0, 24 PRER 1, 40 RD 0"},
        {10, "4 ACT 0, 12 RD 0"},
        {10, "4 ACT 0, 4 WR 0"},
        {11, "4 ACT 0, 13 RD 0, 18 WR 0"},
        {11, "4 ACT 0, 12 ACT 20, 21 RD 0, 26 WR 20"},
        {12, "4 ACT 0, 10 WR 0, 16 D, 17 NOCOP"},
        {12, "4 ACT 0, 5 WR 0, 11 D, 12 NOCOP"},
        {12, "4 ACT 0, 5 WR 0, 11 D, 9 WR 0, 15 D, 13 RD 0"},
        {12, "4 ACT 0, 5 WR 0, 11 D, 9 WR 0, 15 D, 13 WR 0, 19 D, 40 RD 0"},
        {13, "4 ACT 0, 21 RD 0, 24 PRER 0"},
        {13, "4 ACT 1, 21 RD 1, 24 REFP 0"},
        {13, "4 ACT 0, 13 WR 0, 19 D, 21 NOCOP, 24 PRER 1"},
        {13, "4 ACT 20, 13 WR 20, 19 D, 21 NOCOP, 24 PRER 20"},
        {13, "4 ACT 0, 12 ACT 20, 14 WR 0, 20 D, 22 WR 20, 28 D, 25 PRER 0"},
        {14, "4 ACT 0, 13 WR 0, 19 D, 24 PRER 0"},
        {14, "4 ACT 0, 13 WR 0, 19 D, 24 REFP 1"},
        {14, "4 ACT 0, 12 ACT 20, 14 WR 0, 20 D, 18 WR 20, 24 D, 24 PRER 0"},
        {14, "4 ACT 0, 12 ACT 20, 14 WR 20, 20 D, 18 WR 0, 24 D, 24 PRER 0"},
        {14, "4 ACT 0, 12 ACT 20, 14 WR 0, 20 D, 18 WR 20, 24 D, 22 NOCOP, 32 REFP 21"},
        {15, "4 D"},
        {15, "4 ACT 0, 5 WR 0, 12 D"},
        {15, "4 ACT 0, 5 WR 0, 10 D"},
        {15, "4 ACT 0, 13 WR 0, 12 D"},
        {15, "4 ACT 0, 5 WR 0, 13 NOCOP"},
        {15, "4 ACT 0, 5 WR 0, 11 D, 11 D"},
        {16, "4 NOCOP 0 0 0003"},
        {16, "4 ACT 0, 5 WR 0 0 0003"},
        {16, "4 ACT 0, 5 WR 0, 11 D, 12 WR 0 0 0003"},
        {16, "4 ACT 0, 13 RD 0 0 0000"},
        {16, "4 ACT 0, 5 WR 0, 11 D, 13 RD 0 0 0003"},
        /* implied PRERs, and rule 17 */
        {1, "999999900 ACT 0, 999999993 RDA 0"},
        {1, "999999900 ACT 0, 999999995 WRA 0"},
        {1, "999999900 ACT 0, 999999985 WRA 0, 999999991 D, 999999997 NOCOP"},
        {6, "4 ACT 0, 19 RDA 0"},
        {6, "4 ACT 0, 5 WRA 0, 11 D, 19 NOCOP"},
        {7, "4 ACT 0, 30 RDA 0, 41 ACT 1"},
        {7, "4 ACT 0, 30 RDA 0, 41 REFA 0"},
        {8, "4 ACT 0, 20 PRER 20, 23 RDA 0"},
        {8, "4 ACT 0, 20 RDA 0, 31 PRER 20"},
        {8, "4 ACT 0, 12 ACT 5, 28 RDA 5, 35 RDA 0"},
        {8, "4 ACT 0, 12 ACT 5, 14 WRA 0, 20 D, 28 RDA 5, 35 NOCOP"},
        {9, "4 ACT 0, 20 RDA 0, 24 RD 0"},
        {9, "4 ACT 0, 20 RDA 0, 26 WR 0"},
        {9, "4 ACT 0, 5 WRA 0, 11 D, 20 NOCOP, 24 RD 0"},
        {9, "4 ACT 0, 13 WRA 0, 19 D, 21 WR 0"},
        {9, "4 ACT 0, 13 WRA 0, 19 D, 21 WRA 0"},
        {10, "4 ACT 0, 4 WRA 0"},
        {12, "4 ACT 0, 5 WRA 0, 11 D, 12 NOCOP"},
        {12, "4 ACT 0, 5 WR 0, 11 D, 9 WRA 0, 15 D, 13 RD 0"},
        {14, "4 ACT 0, 13 WR 0, 19 D, 20 RDA 0"},
        {14, "4 ACT 0, 13 WRA 0, 19 D, 20 RDA 0"},
        {15, "4 ACT 0, 5 WRA 0, 12 D"},
        {15, "4 ACT 0, 5 WRA 0, 20 NOCOP"},
        {16, "4 ACT 0, 20 RDA 0 0 0003"},
        {16, "4 ACT 0, 5 WRA 0 0 0003"},
        {17, "4 ACT 0, 5 WRA 0, 11 D, 12 ACT 20"},
        {17, "4 ACT 0, 5 WRA 0, 11 D, 8 PRER 20"},
        {17, "4 ACT 0, 12 ACT 20, 16 WRA 0, 22 D, 20 WR 20"},
        {17, "4 ACT 0, 5 WR 0, 11 D, 9 WRA 0 1, 15 D, 13 WR 0 2"},
        {17, "4 ACT 0, 5 WR 0, 11 D, 9 WRA 0 1, 15 D, 13 NOCOP, 16 REFP 20"},
        {17, "4 ACT 0, 20 RDA 0, 23 ACT 20"},
        {17, "4 ACT 0, 5 WRA 0, 11 D, 20 NOCOP, 23 REFA 20"},
    };
    for (size_t i = 0; i < COUNT(LISTS); i++)
        test_broken_list(&LISTS[i]);
}

/* Several rules broken by one record: the lowest is named. */
void test_several_rules(void)
{
    static const broken_list LISTS[] = {
        {1, "3 RD 0"},                                            /* 9 */
        {1, "4 ACT 0, 5 WR 0, 3 D"},                              /* 15 */
        {1, "999999900 ACT 0, 999999994 WR 0, 1000000001 D"},     /* 15 */
        {1, "4294967295 RD 0 0 0003"},                            /* 9, 16 */
        {2, "4 ACT 0, 5 ACT 0"},                                  /* 4, 5 */
        {3, "4 ACT 0, 5 WR 0, 6 NOCOP"},                          /* 12, 15 */
        {4, "4 ACT 0, 31 ACT 1"},                                 /* 5 */
        {5, "4 ACT 0, 24 PRER 0, 31 ACT 0"},                      /* 7 */
        {6, "4 ACT 0, 13 RD 0, 13 PRER 0"},                       /* 13 */
        {6, "4 ACT 0, 13 WR 0, 19 D, 23 PRER 0"},                 /* 14 */
        {9, "4 NOCOP, 8 RD 0 0 0003"},                            /* 16 */
        {3, "4 ACT 0, 5 WR 0, 11 D, 9 WR 0, 15 D, 12 WR 0"},      /* 12 */
        {9, "4 ACT 0, 5 WR 0, 11 D, 9 WR 0, 15 D, 13 RD 20"},     /* 12 */
        {10, "4 ACT 0, 12 RD 0 0 0003"},                          /* 16 */
        {11, "4 ACT 0, 13 RD 0, 18 WR 0 0 0003"},                 /* 16 */
        {12, "4 ACT 0, 10 WR 0, 17 NOCOP"},                       /* 15 */
        {12, "4 ACT 0, 10 WR 0, 16 D, 17 NOCOP 0 0 0003"},        /* 16 */
        {12, "4 ACT 0, 5 WR 0, 11 D, 9 WR 0, 13 RD 0"},           /* 15 */
        {13, "4 ACT 0, 19 WR 0, 25 D, 27 WR 0, 33 D, 30 PRER 0"}, /* 14 */
        {15, "4 ACT 0, 5 WR 0, 13 RD 0 0 0003"},                  /* 16 */
        {1, "999999900 ACT 0, 999999985 WRA 0, 1000000000 NOCOP"}, /* 15 */
        {6, "4 ACT 0, 13 RDA 0 0 0003"},                          /* 16 */
        {6, "4 ACT 0, 13 WRA 0, 19 D, 19 RDA 0"},                 /* 14 */
        {7, "4 ACT 0, 30 RDA 0, 33 ACT 1"},                       /* 17 */
        {8, "4 PRER 20, 5 RDA 0"},                                /* 9 */
        {8, "4 ACT 0, 20 RDA 0, 23 PRER 20"},                     /* 17 */
        {15, "4 ACT 0, 5 WRA 0, 12 ACT 20"},                      /* 17 */
    };
    for (size_t i = 0; i < COUNT(LISTS); i++)
        test_broken_list(&LISTS[i]);
    use_list("4 ACT 0, 12 RD 0, 12 RD 0, 3 ACT 1");
    check(both_are(RDRAM_REFUSED_RULE, 10, 1), "the first bad record, not the lowest rule of the list");
}

/* The timings of the settings are those that count. */
void test_timings(void)
{
    use_list("4 ACT 0, 12 RD 0");
    use_figure(5, 8); /* tRCD */
    check(both_are(0, 0, 0), "RD at 12 under tRCD 8");
    use_figure(5, 64);
    check(both_are(RDRAM_REFUSED_RULE, 10, 1), "RD at 12 under tRCD 64");
    use_list("4 ACT 1, 24 PRER 1, 32 ACT 2, 52 PRER 2, 67 ACT 3");
    use_figure(0, 8);  /* tRC */
    use_figure(4, 64); /* tRR: bank 3 is not near bank 1 */
    check(both_are(RDRAM_REFUSED_RULE, 5, 4), "ACT 3 at 67, 63 after ACT 1, under tRR 64");
    use_figure(4, 63);
    check(both_are(0, 0, 0), "ACT 3 at 67, 63 after ACT 1, under tRR 63");
    use_list("4 ACT 0, 4 WR 0, 10 D, 8 NOCOP 0 0 0001, 12 RD 0");
    use_figure(5, 4); /* tRCD */
    use_figure(6, 4); /* tRTR below tCWD */
    check(both_are(0, 0, 0), "a retire before the instant of its D");
    use_list("4 ACT 0, 4 WR 0, 10 D, 8 WR 0, 14 D, 67 WR 0");
    use_figure(6, 64); /* tRTR */
    check(both_are(RDRAM_REFUSED_RULE, 12, 5), "a third write 63 after the first, under tRTR 64");
    use_figure(6, 63);
    check(both_are(0, 0, 0), "a third write 63 after the first, under tRTR 63");
    /* an implied PRER: tRDP and tRTP, but from its own read or retire, and tOFFP */
    static const struct {
        int figure, value;
        uint32_t rule;
        const char *text;
    } IMPLIED[] = {
        {7, 30, 13, "4 ACT 0, 13 RD 0, 38 RDA 0"},
        {7, 30, 0, "4 ACT 0, 13 RD 0, 39 RDA 0"},
        {7, 64, 0, "4 ACT 0, 20 RDA 0"},
        {8, 30, 13, "4 ACT 0, 5 WR 0, 11 D, 13 NOCOP, 38 RDA 0"},
        {8, 30, 0, "4 ACT 0, 5 WR 0, 11 D, 13 NOCOP, 39 RDA 0"},
        {8, 30, 13, "4 ACT 0, 5 WR 0, 11 D, 13 WRA 0, 19 D, 38 NOCOP"},
        {8, 64, 0, "4 ACT 0, 5 WRA 0, 11 D, 20 NOCOP"},
        {8, 30, 8, "4 ACT 0, 5 WRA 0, 11 D, 20 NOCOP, 31 PRER 0"},
        {8, 30, 13, "4 ACT 0, 5 WRA 0, 11 D, 20 NOCOP, 49 PRER 0"},
        {T_OFFP, 32, 0, "4 ACT 0, 13 RDA 0, 45 ACT 20"},
        {T_OFFP, 32, 17, "4 ACT 0, 13 RDA 0, 44 ACT 20"},
        {T_OFFP, 32, 1, "999999900 ACT 0, 999999969 RDA 0"},
        {T_OFFP, 32, 0, "999999900 ACT 0, 999999968 RDA 0"},
    };
    for (size_t i = 0; i < COUNT(IMPLIED); i++) {
        uint32_t rule = IMPLIED[i].rule;
        use_list(IMPLIED[i].text);
        use_figure(IMPLIED[i].figure, (unsigned)IMPLIED[i].value);
        check(rule ? both_are(RDRAM_REFUSED_RULE, rule, records - 1) : both_are(0, 0, 0), "rule %" PRIu32 ": %s", rule,
              IMPLIED[i].text);
    }
    use_list("4 ACT 0, 13 RD 0");
    use_figure(15, 1); /* device */
    check(both_are(RDRAM_REFUSED_WORD, 0, 0), "a list of another device");
}

/* The rule that the last record breaks under core forms 0, 1 and 2, or 0 where the list passes. */
void test_cores(void)
{
    static const struct {
        uint32_t rules[CORES];
        const char *text;
    } LISTS[] = {
        /* 15 and 16 are neighbours in one run of 32 alone */
        {{0, 4, 0}, "4 ACT 15, 12 ACT 16"},
        {{0, 5, 0}, "4 ACT 15, 24 PRER 15, 31 ACT 16"},
        {{0, 6, 0}, "4 ACT 15, 23 PRER 16"},
        {{0, 7, 0}, "4 PRER 15, 11 ACT 16"},
        {{4, 7, 0}, "4 ACT 15, 30 PRER 16, 37 ACT 14"},
        {{4, 0, 0}, "4 ACT 15, 30 PRER 16, 38 ACT 14"},
        {{0, 9, 0}, "4 ACT 15, 24 PRER 16, 40 RD 15"},
        {{0, 13, 0}, "4 ACT 15, 21 RD 15, 24 PRER 16"},
        {{0, 14, 0}, "4 ACT 15, 13 WR 15, 19 D, 24 REFP 16"},
        {{0, 7, 0}, "4 ACT 15, 30 RDA 15, 41 ACT 16"},
        /* other banks that follow each other are such in both */
        {{4, 4, 0}, "4 ACT 0, 12 ACT 1"},
        {{4, 4, 0}, "4 ACT 1, 12 REFA 0"},
        {{4, 4, 5}, "4 ACT 0, 11 ACT 1"},
        {{6, 6, 0}, "4 ACT 0, 23 PRER 1"},
        {{7, 7, 0}, "4 PRER 0, 11 ACT 1"},
        {{9, 9, 0}, "4 ACT 0, 24 PRER 1, 40 RD 0"},
        {{13, 13, 0}, "4 ACT 30, 21 RD 30, 24 PRER 31"},
        {{14, 14, 0}, "4 ACT 0, 13 WR 0, 19 D, 24 PRER 1"},
        /* a bank and itself in all three */
        {{4, 4, 4}, "4 ACT 0, 32 ACT 0"},
    };
    for (size_t i = 0; i < COUNT(LISTS); i++)
        for (unsigned core = 0; core < CORES; core++) {
            uint32_t rule = LISTS[i].rules[core];
            use_list(LISTS[i].text);
            use_core(core);
            int ok = rule ? both_are(RDRAM_REFUSED_RULE, rule, records - 1) : both_are(0, 0, 0);
            check(ok, "rule %" PRIu32 " under core form %u: %s", rule, core, LISTS[i].text);
        }
    use_list("4 ACT 0");
    use_core(RDRAM_CORE_INDEPENDENT + 1);
    check(both_are(RDRAM_REFUSED_SETTINGS, 0, 0), "core form 3");
}
