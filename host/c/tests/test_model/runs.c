/* Runs: reads, retires to each place and by each mask, broken rules, and the refresh row. */
#include "test_model.h"

/* The store that is wanted after a write of the D at an instant. */
static void want_write(unsigned bank, unsigned row, unsigned column, unsigned mask, unsigned instant)
{
    uint8_t data[16];
    put_data(data, instant);
    want_bytes(bank, row, column, mask, data);
}

void test_runs(void)
{
    /* run 1 of the paper */
    run("4 ACT 0 0, 13 RD 0 1: reads, 19 WR 0 1, 25 D, 27 NOCOP 0 0 0003: wrote 2, 31 RD 0 1: reads, 35 PRER 0, "
        "43 ACT 1 0, 52 RD 1 0: reads, 63 PRER 1");
    want_write(0, 0, 1, 0x0003, 25);
    check(store_right(), "store after run 1");
    /* two writes to one dualoct wait, older first; no RD comes while they do */
    run("4 ACT 0, 5 WR 0, 11 D, 9 WR 0 0 0003: rule 16, 9 WR 0, 15 D, 13 RD 0: rule 12, 13 NOCOP 0 0 0003: wrote 2, "
        "17 RD 0: reads, 21 NOCOP 0 0 0006: wrote 2, 25 RD 0: reads");
    want_write(0, 0, 0, 0x0003, 11);
    want_write(0, 0, 0, 0x0006, 15);
    check(store_right(), "store after two writes that waited together");
    /* a WR every tCC: from the third on each retires the last but one */
    run("4 ACT 0, 5 WR 0 0, 11 D, 9 WR 0 1, 15 D, 13 WR 0 2 00FF: wrote 8, 19 D, 17 WR 0 3: wrote 16, 23 D, "
        "24 PRER 1: rule 14, 24 NOCOP 0 0 0000: wrote 0, 28 RD 0 1: reads, 32 RD 0 3: reads, 36 NOCOP: wrote 16");
    want_write(0, 0, 0, 0x00FF, 11);
    want_write(0, 0, 1, 0xFFFF, 15);
    want_write(0, 0, 3, 0xFFFF, 23);
    check(store_right(), "store after writes at full rate");
    /* writes of two banks: neither is closed under its write */
    run("4 ACT 0 1, 12 ACT 20, 14 WR 20 3, 20 D, 18 WR 0 3, 24 D, 32 PRER 0: rule 14, 32 PRER 20: rule 14, "
        "32 NOCOP: wrote 16, 32 PRER 1: rule 14, 36 PRER 20, 36 NOCOP 0 0 F000: wrote 4");
    want_write(20, 0, 3, 0xFFFF, 20);
    want_write(0, 1, 3, 0xF000, 24);
    check(store_right(), "store after writes of two banks");
    /* the second WR carries the first's mask, the NOCOP its own */
    run("4 ACT 0, 5 WR 0, 11 D, 13 WR 0 0 0003: wrote 2, 19 D, 21 NOCOP 0 0 0006: wrote 2, 25 RD 0: reads");
    want_write(0, 0, 0, 0x0003, 11);
    want_write(0, 0, 0, 0x0006, 19);
    check(store_right(), "store after two writes to one dualoct");
    /* an RD past its own waiting write reads the old bytes; M = 0 writes all 16 */
    run("4 ACT 31 1, 5 WR 31 3, 11 D, 13 RD 31 3: reads, 17 NOCOP: wrote 16, 21 RD 31 3: reads");
    want_write(31, 1, 3, 0xFFFF, 11);
    check(store_right(), "store after a full write");
    /* PRER under the buffer is refused, so the write goes to the row of its WR */
    run("4 ACT 5 0, 13 WR 5 3, 19 D, 24 PRER 5: rule 14, 24 PRER 4: rule 14, 25 NOCOP 0 0 8001: wrote 2, 36 PRER 5, "
        "44 ACT 5 1, 53 RD 5 3: reads");
    want_write(5, 0, 3, 0x8001, 19);
    check(store_right(), "store after a change of row");
    /* a write to another bank retires it */
    run("4 ACT 0 1, 5 WR 0 1, 11 D, 12 ACT 20, 21 RD 20 1: reads, 27 WR 20 2 FF00: wrote 8, 33 D, 31 RD 0 1: reads, "
        "35 NOCOP 0 0 0000: wrote 0");
    want_write(0, 1, 1, 0xFF00, 11);
    check(store_right(), "store after a write of mask 0");
}

/* RDA and WRA: the bank is closed after the read, or after the retire. */
void test_closing_runs(void)
{
    run("4 ACT 0 1, 19 RDA 0 2: rule 6, 20 RDA 0 2: reads, 24 RD 0: rule 9, 23 ACT 20: rule 17, 24 ACT 20, "
        "31 PRER 0: rule 8, 32 ACT 0, 41 RD 0: reads");
    run("4 ACT 0 1, 5 WRA 0 2, 11 D, 12 ACT 20: rule 17, 13 RD 0 2: reads, 17 RDA 0: rule 6, 19 NOCOP: rule 6, "
        "20 RDA 0: rule 14, 20 NOCOP 0 0 0F0F: wrote 8, 26 WR 0: rule 9, 32 ACT 0 1, 41 RD 0 2: reads");
    want_write(0, 1, 2, 0x0F0F, 11);
    check(store_right(), "store after a WRA");
    /* beside a plain write, which retires first */
    run("4 ACT 0, 5 WR 0, 11 D, 9 WRA 0, 15 D, 13 WR 0: rule 17, 13 NOCOP 0 0 0003: wrote 2, 19 NOCOP: rule 6, "
        "20 NOCOP 0 0 0006: wrote 2, 24 RD 0: rule 9, 32 ACT 0, 41 RD 0: reads");
    want_write(0, 0, 0, 0x0003, 11);
    want_write(0, 0, 0, 0x0006, 15);
    check(store_right(), "store after a WRA beside a WR");
    /* a WR of another bank retires it, one of its own finds the bank closed */
    run("4 ACT 0, 12 ACT 20, 16 WRA 0, 22 D, 23 WR 20: rule 17, 24 WR 0: rule 9, 24 WRA 20 1 8000: wrote 1, 30 D, "
        "28 RD 0: rule 9, 28 RD 20 1: reads, 32 RDA 20: rule 14, 32 NOCOP: wrote 16, 35 ACT 4: rule 17, 36 ACT 4");
    want_write(0, 0, 0, 0x8000, 22);
    want_write(20, 0, 1, 0xFFFF, 30);
    check(store_right(), "store after two WRA");
    run("999999900 ACT 0, 999999993 RDA 0: rule 1, 999999985 WRA 0, 999999991 D, 999999997 NOCOP: rule 1, "
        "999999996 NOCOP: wrote 16");
}

void test_rules(void)
{
    static const char *const RUNS[] = {
        "3 ACT 0: rule 1", "4 ACT 0, 7 PRER 9: rule 2", "4 NOCOP, 7 NOCOP: rule 3",
        "4 ACT 15, 32 ACT 14: rule 4, 32 ACT 16 1, 41 RD 16: reads", "4 ACT 0, 11 ACT 20: rule 5",
        "4 ACT 0, 23 PRER 1: rule 6", "4 PRER 0, 11 ACT 1: rule 7", "4 PRER 0, 11 PRER 9: rule 8",
        "4 REFA 3, 13 RD 3: rule 9, 24 PRER 2, 32 ACT 3, 41 RD 3: reads",
        "4 ACT 0, 12 RD 0: rule 10, 13 RD 0: reads, 18 WR 0: rule 11, 19 WR 0, 25 D, 26 NOCOP: rule 12",
        "4 ACT 0, 21 RD 0: reads, 24 PRER 0: rule 13",
        "4 ACT 0, 13 WR 0, 19 D, 20 NOCOP: rule 12, 21 WR 0: wrote 16, 27 D, 29 NOCOP: wrote 16, 32 PRER 1: rule 13",
        /* an early NOCOP retires nothing, so 10 does not judge it; the lowest of several: 10 before 15 */
        "4 ACT 0, 5 WR 0, 11 D, 12 NOCOP: rule 12", "4 ACT 0, 5 WR 0, 12 RD 0: rule 10",
        /* a D out of its place is no packet out of order */
        "4 ACT 0, 13 RD 0: reads, 10 D: rule 15",
        "4 ACT 0, 5 WR 0, 13 NOCOP: rule 15, 12 D: rule 15, 11 D, 11 D: rule 15, 13 NOCOP: wrote 16",
        "4 NOCOP 0 0 0001: rule 16, 4 NOCOP", "4 ACT 0, 13 RD 0 0 0001: rule 16",
        "999999900 ACT 0, 999999993 RD 0: rule 1, 999999992 RD 0: reads",
        "999999900 ACT 0, 999999995 WR 0: rule 1, 999999994 WR 0, 1000000000 D, 1000000000 NOCOP: rule 12",
        /* words of other settings: row, column, a full mask with M = 1 */
        "4 ACT 0 2: refused 10, 4 ACT 0, 13 RD 0 4: refused 10, 13 NOCOP 0 0 FFFF: refused 10"};
    for (size_t i = 0; i < COUNT(RUNS); i++)
        run(RUNS[i]);
}

/* Neighbours are those of the core form: 15 and 16, and 0 and 1. */
void test_cores(void)
{
    static const char *const RUNS[CORES] = {
        "4 ACT 15 1, 12 ACT 16, 21 RD 16: reads, 32 PRER 17, 33 RD 15: reads, 41 RD 16: rule 9, 41 ACT 0, "
        "49 ACT 1: rule 4, 61 PRER 1, 69 RD 0: rule 9",
        "4 ACT 15 1, 12 ACT 16: rule 4, 23 PRER 16: rule 6, 24 PRER 16, 40 RD 15: rule 9, 40 ACT 16, 49 RD 16: reads",
        "4 ACT 15 1, 12 ACT 16, 21 RD 16: reads, 24 PRER 14, 25 RD 15: reads, 32 ACT 0, 40 ACT 1, 48 REFA 2, 49 RD 0: "
        "reads, 56 PRER 2: rule 6, 68 REFP 2, 69 RD 1: reads"};
    for (unsigned core = 0; core < CORES; core++) {
        begin();
        use_core(core);
        run_more(RUNS[core]);
    }
}

/* Each place: a write goes to its own dualoct and to no other. */
void test_places(void)
{
    char text[80];
    for (unsigned place = 0; place < 32 * ROWS * COLUMNS; place++) {
        unsigned bank = place / COLUMNS / ROWS, row = place / COLUMNS % ROWS, column = place % COLUMNS;
        snprintf(text, sizeof text, "4 ACT %u %u, 5 WR %u %u, 11 D, 13 NOCOP 0 0 0FF0: wrote 8", bank, row, bank,
                 column);
        run(text);
        want_write(bank, row, column, 0x0FF0, 11);
        check(store_right(), "store after: %s", text);
    }
}

/* Each bit of a mask, and each number of ones. */
void test_masks(void)
{
    char text[80];
    for (unsigned i = 0; i < 32; i++) {
        unsigned mask = i < 16 ? 1u << i : (1u << (i - 16)) - 1;
        snprintf(text, sizeof text, "4 ACT 7, 5 WR 7 1, 11 D, 13 NOCOP 0 0 %04X: wrote %u", mask, i < 16 ? 1 : i - 16);
        run(text);
        want_write(7, 0, 1, mask, 11);
        check(store_right(), "store after: %s", text);
    }
}

/* REFR rises after REFA to bank 31 alone, modulo rows. */
void test_refresh_rows(void)
{
    char text[80];
    begin();
    for (unsigned i = 0; i < 12; i++) {
        static const unsigned BANKS[] = {30, 31, 0};
        unsigned instant = 4 + 28 * i, risen = (i + 2) / 3;
        check(get(model + 752, 2) == (i % 3 == 2 ? risen : i / 3) % ROWS, "REFR before refresh %u", i);
        snprintf(text, sizeof text, "%u REFA %u, %u REFP %u", instant, BANKS[i % 3], instant + 20, BANKS[i % 3]);
        run_more(text);
    }
    check(get(model + 752, 2) == 0, "REFR after refreshes");
    run_more("500 ACT 31 1, 520 PRER 31");
    check(get(model + 752, 2) == 0, "REFR after ACT to bank 31");
}
