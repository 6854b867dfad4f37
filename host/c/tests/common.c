/* What the test programs share. Words, records and blocks are written from document 01. */
#include "common.h"
#include <stdarg.h>

/* ---- Checks ---- */

static int passed, failed;

void check(int ok, const char *format, ...)
{
    va_list arguments;
    if (ok) {
        passed++;
        return;
    }
    failed++;
    printf("FAILED: ");
    va_start(arguments, format);
    vprintf(format, arguments);
    va_end(arguments);
    printf("\n");
}

int report(void)
{
    printf("%d passed, %d failed\n", passed, failed);
    return failed > 0;
}

/* ---- Bytes ---- */

void put(uint8_t *to, uint64_t number, int bytes)
{
    for (int i = 0; i < bytes; i++)
        to[i] = (uint8_t)(number >> 8 * i);
}

uint64_t get(const uint8_t *from, int bytes)
{
    uint64_t number = 0;
    for (int i = bytes - 1; i >= 0; i--)
        number = number * 256 + from[i];
    return number;
}

void fill(uint8_t *bytes, size_t length)
{
    for (size_t i = 0; i < length; i++)
        bytes[i] = (uint8_t)(i * 37 + 11);
}

/* ---- Settings ---- */

const uint16_t SET_H[16] = {28, 20, 8, 8, 8, 9, 8, 4, 4, 4, 8, 6, 4, 2, 4, 0};

uint8_t settings[RDRAM_SETTINGS_BYTES], settings_before[RDRAM_SETTINGS_BYTES];

void use_figure(int figure, unsigned value)
{
    put(settings + 2 * figure, value, 2);
}

void use_figures(const uint16_t *figures)
{
    for (int i = 0; i < 16; i++)
        use_figure(i, figures[i]);
}

void use_set_h(void)
{
    use_figures(SET_H);
}

void use_core(unsigned core)
{
    settings[RDRAM_SETTINGS_CORE] = (uint8_t)core;
}

void use_bad_figure(int figure)
{
    use_set_h();
    use_figure(figure, 0xFFFF);
}

/* ---- Words and records ---- */

/* Appends a field of `width` bits at the low end. */
static uint64_t with(uint64_t word, int width, uint64_t value)
{
    return (word << width) | value;
}

uint64_t row_word(unsigned device, unsigned bank, unsigned command, unsigned row)
{
    static const uint64_t ROP[4] = {0, 0x600, 0x0C0, 0x540};
    uint64_t word = device < 16 ? 1 : 2; /* DR4T, DR4F */
    word = with(word, 4, device % 16);
    word = with(word, 5, bank);
    if (command == RDRAM_ACT)
        return with(with(with(word, 1, 1), 3, 0), 9, row);
    return with(with(with(word, 1, 0), 1, 0), 11, ROP[command]);
}

/* The fields of a COL word above M. */
static uint64_t col_front(unsigned device, unsigned bank, unsigned command, unsigned column)
{
    static const uint64_t COP[] = {0, 1, 3, 5, 7}; /* NOCOP, WR, RD, WRA, RDA */
    uint64_t word = with(1, 5, device);
    word = with(with(word, 5, bank), 1, 0);
    return with(with(word, 7, column), 4, COP[command - RDRAM_NOCOP]);
}

/* With M = 1, also where the mask is full, which no packet has. */
static uint64_t masked_word(unsigned device, unsigned bank, unsigned command, unsigned column, unsigned mask)
{
    uint64_t word = with(col_front(device, bank, command, column), 1, 1);
    return with(with(word, 8, mask / 256), 8, mask % 256);
}

uint64_t col_word(unsigned device, unsigned bank, unsigned command, unsigned column, unsigned mask)
{
    if (mask != FULL)
        return masked_word(device, bank, command, column, mask);
    uint64_t word = with(col_front(device, bank, command, column), 1, 0);
    return with(with(with(word, 5, device), 6, 0), 5, 0);
}

void put_packet(uint8_t *record, uint32_t instant, int kind, uint64_t word)
{
    memset(record, 0, RECORD);
    put(record, instant, 4);
    record[4] = (uint8_t)kind;
    put(record + 8, word, 8);
}

static unsigned command_of(const char *name)
{
    static const char *const NAMES[] = {"ACT", "PRER", "REFA", "REFP", "NOCOP", "WR", "RD", "WRA", "RDA", "D"};
    unsigned command = 0;
    while (strcmp(NAMES[command], name) != 0)
        command++;
    return command;
}

int put_line(uint8_t *record, const char *line)
{
    unsigned instant = 0, bank = 0, place = 0, mask = 0;
    char name[8] = "";
    int masked = sscanf(line, "%u %7[A-Z] %u %u %x", &instant, name, &bank, &place, &mask) == 5;
    unsigned command = command_of(name);
    if (command > RDRAM_RDA)
        put_packet(record, instant, RDRAM_KIND_D, 0);
    else if (command <= RDRAM_REFP)
        put_packet(record, instant, RDRAM_KIND_ROW, row_word(0, bank, command, place));
    else if (masked)
        put_packet(record, instant, RDRAM_KIND_COL, masked_word(0, bank, command, place, mask));
    else
        put_packet(record, instant, RDRAM_KIND_COL, col_word(0, bank, command, place, FULL));
    return command > RDRAM_RDA;
}

const char *after_comma(const char *text)
{
    const char *comma = strchr(text, ',');
    return comma ? comma + 1 : NULL;
}

/* ---- Logs ---- */

size_t blocks_for(size_t records)
{
    return (records + 14) / 15;
}

void seal(uint8_t *block)
{
    uint32_t sum = 0;
    for (int i = 0; i < 127; i++)
        sum += (uint32_t)get(block + 4 * i, 4);
    put(block + 508, (uint32_t)(0 - sum), 4);
}

size_t put_log(uint8_t *log, const uint8_t *list, size_t records)
{
    for (size_t k = 0; k < blocks_for(records); k++) {
        size_t used = records - 15 * k < 15 ? records - 15 * k : 15;
        uint8_t *block = log + BLOCK * k;
        memset(block, 0, BLOCK);
        memcpy(block, list + 15 * RECORD * k, RECORD * used);
        put(block + 480, k, 4);
        put(block + 484, used, 4);
        seal(block);
    }
    return BLOCK * blocks_for(records);
}

/* ---- States ---- */

const uint32_t IN_RANGE[6] = {0, 1, 2, 3, LAST - 4, LAST - 3};
const uint32_t OUT_OF_RANGE[10] = {LAST - 2,   LAST - 1,   LAST,       LAST + 1,   0x7FFFFFFF,
                                   0x80000000, 0xFFFFFFFC, 0xFFFFFFFD, 0xFFFFFFFE, 0xFFFFFFFF};

int instant_offset(int n)
{
    return n < 160 ? 4 * n : 704 + 4 * (n - 160);
}

int state_is(const uint8_t *state, size_t length, const field *fields, size_t count)
{
    uint8_t wanted[RDRAM_MODEL_BYTES] = {0}; /* the longest state */
    for (size_t i = 0; i < count; i++)
        put(wanted + fields[i].offset, fields[i].value, fields[i].bytes);
    return memcmp(state, wanted, length) == 0;
}

int other_lengths_refused(uint32_t (*fresh)(uint8_t *, size_t), uint8_t *state, size_t size, size_t right)
{
    int ok = 1;
    for (size_t length = 0; length < size; length++)
        if (length != right) {
            memset(state, 0xA5, size);
            ok &= fresh(state, length) == RDRAM_REFUSED_SETTINGS;
            for (size_t i = 0; i < size; i++)
                ok &= state[i] == 0xA5;
        }
    return ok;
}
