/* Words: packets to words and back, worked ones, all of them, and what is refused. */
#include "test.h"

static rdram_word word_of(uint32_t command, uint32_t bank, uint32_t place, uint32_t mask)
{
    return rdram_word_encode(settings, sizeof settings, command, bank, place, mask);
}

static rdram_packet packet_of(uint32_t kind, uint64_t word)
{
    return rdram_word_decode(settings, sizeof settings, kind, word);
}

static int no_packet(rdram_packet p, uint32_t number)
{
    return p.number == number && p.command == 0 && p.bank == 0 && p.place == 0 && p.mask == 0;
}

static int same_packet(rdram_packet p, uint32_t command, uint32_t bank, uint32_t place, uint32_t mask)
{
    return p.number == 0 && p.command == command && p.bank == bank && p.place == place && p.mask == mask;
}

static int both_ways(uint32_t command, uint32_t bank, uint32_t place, uint32_t mask, uint64_t word)
{
    rdram_word coded = word_of(command, bank, place, mask);
    uint32_t kind = command <= RDRAM_REFP ? RDRAM_KIND_ROW : RDRAM_KIND_COL;
    return coded.number == 0 && coded.word == word && same_packet(packet_of(kind, word), command, bank, place, mask);
}

void test_worked_words(void)
{
    static const struct { int device; uint32_t command, bank, place, mask; uint64_t word; } CASES[] = {
        {0, RDRAM_ACT, 0, 0, 0, 0x401000},
        {0, RDRAM_ACT, 31, 511, 0, 0x43F1FF},
        {0, RDRAM_PRER, 0, 0, 0, 0x400600},
        {0, RDRAM_PRER, 31, 0, 0, 0x43E600},
        {0, RDRAM_REFA, 0, 0, 0, 0x4000C0},
        {0, RDRAM_REFP, 0, 0, 0, 0x400540},
        {0, RDRAM_NOCOP, 0, 0, FULL, 0x8000000000},
        {0, RDRAM_NOCOP, 0, 0, 0x0003, 0x8000010003},
        {0, RDRAM_NOCOP, 0, 0, 0x0000, 0x8000010000},
        {0, RDRAM_WR, 0, 1, FULL, 0x8000220000},
        {0, RDRAM_WR, 0, 1, 0x0003, 0x8000230003},
        {0, RDRAM_WR, 0, 1, 0xFFFE, 0x800023FFFE},
        {0, RDRAM_RD, 0, 1, FULL, 0x8000260000},
        {0, RDRAM_RD, 0, 1, 0x0003, 0x8000270003},
        {0, RDRAM_RD, 0, 1, 0x0000, 0x8000270000},
        {0, RDRAM_WRA, 0, 1, FULL, 0x80002A0000},
        {0, RDRAM_WRA, 0, 1, 0x0003, 0x80002B0003},
        {0, RDRAM_RDA, 0, 1, FULL, 0x80002E0000},
        {0, RDRAM_RDA, 0, 1, 0x0003, 0x80002F0003},
        {15, RDRAM_ACT, 0, 0, 0, 0x7C1000},
        {16, RDRAM_ACT, 0, 0, 0, 0x801000},
        {16, RDRAM_RD, 0, 1, FULL, 0xC000268000},
        {16, RDRAM_NOCOP, 0, 0, FULL, 0xC000008000},
        {31, RDRAM_ACT, 31, 511, 0, 0xBFF1FF},
        {31, RDRAM_REFP, 0, 0, 0, 0xBC0540},
        {31, RDRAM_WR, 31, 127, FULL, 0xFFEFE2F800},
        {31, RDRAM_WR, 31, 127, 0xA55A, 0xFFEFE3A55A},
    };
    for (size_t i = 0; i < COUNT(CASES); i++) {
        use(512, 128, CASES[i].device);
        check(both_ways(CASES[i].command, CASES[i].bank, CASES[i].place, CASES[i].mask, CASES[i].word),
              "word %010" PRIX64 " of device %d, both ways", CASES[i].word, CASES[i].device);
    }
}

static int all_row_words(unsigned device, unsigned rows)
{
    int ok = 1;
    for (unsigned bank = 0; bank < 32; bank++) {
        for (unsigned row = 0; row < rows; row++)
            ok &= both_ways(RDRAM_ACT, bank, row, 0, row_word(device, bank, RDRAM_ACT, row));
        for (unsigned command = RDRAM_PRER; command <= RDRAM_REFP; command++)
            ok &= both_ways(command, bank, 0, 0, row_word(device, bank, command, 0));
    }
    return ok;
}

static int all_col_words(unsigned device, unsigned columns, unsigned mask)
{
    int ok = both_ways(RDRAM_NOCOP, 0, 0, mask, col_word(device, 0, RDRAM_NOCOP, 0, mask));
    for (unsigned bank = 0; bank < 32; bank++)
        for (unsigned column = 0; column < columns; column++)
            for (unsigned command = RDRAM_WR; command <= RDRAM_RDA; command++)
                ok &= both_ways(command, bank, column, mask, col_word(device, bank, command, column, mask));
    return ok;
}

void test_all_words(void)
{
    static const unsigned MASKS[] = {0x0000, 0x0001, 0x0003, 0x8000, 0xFFFE, FULL};
    for (unsigned device = 0; device < 32; device++) {
        use(512, 128, device);
        check(all_row_words(device, 512), "all ROW words of device %u", device);
        int ok = 1;
        for (size_t i = 0; i < COUNT(MASKS); i++)
            ok &= all_col_words(device, 128, MASKS[i]);
        check(ok, "all COL words of device %u", device);
    }
    use(512, 128, 9);
    int ok = 1;
    for (unsigned mask = 0; mask <= FULL; mask++)
        ok &= both_ways(RDRAM_WR, 17, 99, mask, col_word(9, 17, RDRAM_WR, 99, mask));
    check(ok, "all masks");
}

void test_word_refusals(void)
{
    static const struct { const char *why; uint32_t number, command, bank, place, mask; } CASES[] = {
        {"command 9", RDRAM_REFUSED_WORD, 9, 0, 0, 0},
        {"command 9 with a full mask", RDRAM_REFUSED_WORD, 9, 0, 0, FULL},
        {"command 2^32 - 1", RDRAM_REFUSED_WORD, UINT32_MAX, 0, 0, 0},
        {"ACT bank 32", RDRAM_REFUSED_BANK, RDRAM_ACT, 32, 0, 0},
        {"PRER bank 32", RDRAM_REFUSED_BANK, RDRAM_PRER, 32, 0, 0},
        {"WR bank 32", RDRAM_REFUSED_BANK, RDRAM_WR, 32, 0, FULL},
        {"RD bank 2^31", RDRAM_REFUSED_BANK, RDRAM_RD, 0x80000000u, 0, FULL},
        {"WRA bank 32", RDRAM_REFUSED_BANK, RDRAM_WRA, 32, 0, FULL},
        {"RDA bank 32", RDRAM_REFUSED_BANK, RDRAM_RDA, 32, 0, FULL},
        {"ACT row 300 of 300", RDRAM_REFUSED_ROW, RDRAM_ACT, 0, 300, 0},
        {"ACT row 512", RDRAM_REFUSED_ROW, RDRAM_ACT, 0, 512, 0},
        {"WR column 100 of 100", RDRAM_REFUSED_COLUMN, RDRAM_WR, 0, 100, FULL},
        {"RD column 128", RDRAM_REFUSED_COLUMN, RDRAM_RD, 0, 128, FULL},
        {"WRA column 100 of 100", RDRAM_REFUSED_COLUMN, RDRAM_WRA, 0, 100, FULL},
        {"RDA column 100 of 100", RDRAM_REFUSED_COLUMN, RDRAM_RDA, 0, 100, FULL},
        {"RD mask 10000", RDRAM_REFUSED_WORD, RDRAM_RD, 0, 0, 0x10000},
        {"RDA mask 10000", RDRAM_REFUSED_WORD, RDRAM_RDA, 0, 0, 0x10000},
        {"NOCOP mask 2^32 - 1", RDRAM_REFUSED_WORD, RDRAM_NOCOP, 0, 0, UINT32_MAX},
        {"ACT with a mask", RDRAM_REFUSED_WORD, RDRAM_ACT, 0, 0, 1},
        {"ACT with a full mask", RDRAM_REFUSED_WORD, RDRAM_ACT, 0, 0, FULL},
        {"PRER with a mask", RDRAM_REFUSED_WORD, RDRAM_PRER, 0, 0, FULL},
        {"PRER with a row", RDRAM_REFUSED_WORD, RDRAM_PRER, 0, 1, 0},
        {"REFA with a row", RDRAM_REFUSED_WORD, RDRAM_REFA, 0, 1, 0},
        {"REFP with a row", RDRAM_REFUSED_WORD, RDRAM_REFP, 0, 1, 0},
        {"NOCOP bank 32", RDRAM_REFUSED_BANK, RDRAM_NOCOP, 32, 0, FULL},
        {"command 9 bank 32", RDRAM_REFUSED_BANK, 9, 32, 0, 0},
        {"bank 32 before row 300", RDRAM_REFUSED_BANK, RDRAM_ACT, 32, 300, 0},
        {"row 300 before a mask", RDRAM_REFUSED_ROW, RDRAM_ACT, 0, 300, 1},
        {"column 100 before mask 10000", RDRAM_REFUSED_COLUMN, RDRAM_WR, 0, 100, 0x10000},
        {"NOCOP with a bank", RDRAM_REFUSED_WORD, RDRAM_NOCOP, 1, 0, FULL},
        {"NOCOP with a column", RDRAM_REFUSED_WORD, RDRAM_NOCOP, 0, 1, FULL},
    };
    use(300, 100, 5);
    for (size_t i = 0; i < COUNT(CASES); i++) {
        rdram_word w = word_of(CASES[i].command, CASES[i].bank, CASES[i].place, CASES[i].mask);
        check(w.number == CASES[i].number && w.word == 0, "no word for %s", CASES[i].why);
    }
    check(word_of(RDRAM_ACT, 31, 299, 0).number == 0, "row 299 of 300 has a word");
    check(word_of(RDRAM_RD, 31, 99, FULL).number == 0, "column 99 of 100 has a word");
}

void test_packet_refusals(void)
{
    uint64_t act = row_word(5, 3, RDRAM_ACT, 7), rd = col_word(5, 3, RDRAM_RD, 7, FULL);
    const struct { const char *why; uint32_t kind; uint64_t word; } CASES[] = {
        {"kind 2", 2, 0},
        {"kind 2^32 - 1", UINT32_MAX, act},
        {"a ROW word as COL", RDRAM_KIND_COL, act},
        {"a COL word as ROW", RDRAM_KIND_ROW, rd},
        {"word 0, ROW", RDRAM_KIND_ROW, 0},
        {"word 0, COL", RDRAM_KIND_COL, 0},
        {"ROW bit 24", RDRAM_KIND_ROW, act | (uint64_t)1 << 24},
        {"ROW bit 63", RDRAM_KIND_ROW, act | (uint64_t)1 << 63},
        {"COL bit 40", RDRAM_KIND_COL, rd | (uint64_t)1 << 40},
        {"COL bit 63", RDRAM_KIND_COL, rd | (uint64_t)1 << 63},
        {"DR4T and DR4F both 1", RDRAM_KIND_ROW, act | 0x800000},
        {"DR4T and DR4F both 0", RDRAM_KIND_ROW, act & ~(uint64_t)0x400000},
        {"another ROW device", RDRAM_KIND_ROW, row_word(6, 3, RDRAM_ACT, 7)},
        {"ROW device + 16", RDRAM_KIND_ROW, row_word(21, 3, RDRAM_ACT, 7)},
        {"row 300 of 300", RDRAM_KIND_ROW, row_word(5, 3, RDRAM_ACT, 300)},
        {"a zero above the row", RDRAM_KIND_ROW, act | 0x200},
        {"a zero above ROP", RDRAM_KIND_ROW, row_word(5, 3, RDRAM_PRER, 0) | 0x800},
        {"ROP 0", RDRAM_KIND_ROW, row_word(5, 3, RDRAM_PRER, 0) ^ 0x600},
        {"ROP 640", RDRAM_KIND_ROW, row_word(5, 3, RDRAM_PRER, 0) | 0x40},
        {"S = 0", RDRAM_KIND_COL, rd & ~((uint64_t)1 << 39)},
        {"another COL device", RDRAM_KIND_COL, col_word(6, 3, RDRAM_RD, 7, FULL)},
        {"another second device", RDRAM_KIND_COL, rd ^ 0x800},
        {"another device with a mask", RDRAM_KIND_COL, col_word(6, 3, RDRAM_RD, 7, 3)},
        {"the zero under the bank", RDRAM_KIND_COL, rd | (uint64_t)1 << 28},
        {"column 100 of 100", RDRAM_KIND_COL, col_word(5, 3, RDRAM_RD, 100, FULL)},
        {"COP 2", RDRAM_KIND_COL, rd ^ 0x20000},
        {"COP 4", RDRAM_KIND_COL, rd ^ 0xE0000},
        {"COP 6", RDRAM_KIND_COL, rd ^ 0xA0000},
        {"COP 15", RDRAM_KIND_COL, rd | 0x180000},
        {"M = 1 with a full mask", RDRAM_KIND_COL, rd | 0x1FFFF},
        {"XOP 1", RDRAM_KIND_COL, rd | 1},
        {"the six zeros", RDRAM_KIND_COL, rd | 0x20},
        {"NOCOP with a bank", RDRAM_KIND_COL, col_word(5, 3, RDRAM_NOCOP, 0, FULL)},
        {"NOCOP with a column", RDRAM_KIND_COL, col_word(5, 0, RDRAM_NOCOP, 1, 3)},
    };
    use(300, 100, 5);
    check(same_packet(packet_of(RDRAM_KIND_ROW, act), RDRAM_ACT, 3, 7, 0), "ACT 3/7 decodes");
    check(same_packet(packet_of(RDRAM_KIND_COL, rd), RDRAM_RD, 3, 7, FULL), "RD 3/7 decodes");
    for (size_t i = 0; i < COUNT(CASES); i++)
        check(no_packet(packet_of(CASES[i].kind, CASES[i].word), RDRAM_REFUSED_WORD), "no packet for %s", CASES[i].why);
}
