/*
 * rdram_util.h: helpers over rdram.h, each static inline: settings, requests and records without their
 * offsets, what a planner says, how many blocks a list takes, texts, and lines of a listing. rdram.h does
 * not include it. It needs C99 or C++, and of a C library stddef.h and stdint.h alone.
 */
#ifndef RDRAM_UTIL_H
#define RDRAM_UTIL_H

#include "rdram.h"
#include <stddef.h>
#include <stdint.h>

/* ---- Numbers in buffers, of 1 to 8 bytes, low byte first ---- */

static inline void rdram_put(uint8_t *to, uint64_t number, int bytes)
{
    for (int i = 0; i < bytes; i++)
        to[i] = (uint8_t)(number >> 8 * i);
}

static inline uint64_t rdram_get(const uint8_t *from, int bytes)
{
    uint64_t number = 0;
    for (int i = bytes - 1; i >= 0; i--)
        number = number << 8 | from[i];
    return number;
}

/* ---- Settings ---- */

/* The figures of a data sheet, as rdram_settings.h explains them; core: enum rdram_core. */
typedef struct {
    uint16_t tRC, tRAS, tRP, tPP, tRR, tRCD, tRTR, tRDP, tRTP, tCC, tCAC, tCWD, tOFFP, rows, columns;
    uint8_t device, core;
} rdram_figures;

/* Set H: rdram_figures figures = RDRAM_FIGURES_H; */
#define RDRAM_FIGURES_H {28, 20, 8, 8, 8, 9, 8, 4, 4, 4, 8, 6, 4, 2, 4, 0, RDRAM_CORE_SPLIT}

static inline void rdram_settings_put(uint8_t settings[RDRAM_SETTINGS_BYTES], const rdram_figures *of)
{
    const uint16_t numbers[15] = {of->tRC,  of->tRAS, of->tRP, of->tPP,  of->tRR,  of->tRCD,  of->tRTR, of->tRDP,
                                  of->tRTP, of->tCC,  of->tCAC, of->tCWD, of->tOFFP, of->rows, of->columns};
    for (int i = 0; i < 15; i++)
        rdram_put(settings + 2 * i, numbers[i], 2);
    settings[RDRAM_SETTINGS_CORE - 1] = of->device;
    settings[RDRAM_SETTINGS_CORE] = of->core;
}

static inline rdram_figures rdram_settings_get(const uint8_t settings[RDRAM_SETTINGS_BYTES])
{
    rdram_figures got;
    uint16_t *const numbers[15] = {&got.tRC,  &got.tRAS, &got.tRP,  &got.tPP,  &got.tRR,   &got.tRCD, &got.tRTR, &got.tRDP,
                                   &got.tRTP, &got.tCC,  &got.tCAC, &got.tCWD, &got.tOFFP, &got.rows, &got.columns};
    for (int i = 0; i < 15; i++)
        *numbers[i] = (uint16_t)rdram_get(settings + 2 * i, 2);
    got.device = settings[RDRAM_SETTINGS_CORE - 1];
    got.core = settings[RDRAM_SETTINGS_CORE];
    return got;
}

/* ---- Requests ---- */

/* A number that its field has no room for becomes the field's largest one, which the library refuses. */
static inline uint8_t rdram_request_byte(uint32_t number)
{
    return (uint8_t)(number < 0xFF ? number : 0xFF);
}

/* Of any kind with its place; the other helpers are for one kind each. */
static inline void rdram_request_put(uint8_t request[RDRAM_REQUEST_BYTES], uint32_t kind, uint32_t bank, uint32_t row,
                                     uint32_t column)
{
    for (int i = 0; i < RDRAM_REQUEST_BYTES; i++)
        request[i] = 0;
    request[0] = rdram_request_byte(kind);
    request[1] = rdram_request_byte(bank);
    rdram_put(request + 2, row < 0xFFFF ? row : 0xFFFF, 2);
    request[4] = rdram_request_byte(column);
}

static inline void rdram_request_read(uint8_t request[RDRAM_REQUEST_BYTES], uint32_t bank, uint32_t row, uint32_t column)
{
    rdram_request_put(request, RDRAM_REQUEST_READ, bank, row, column);
}

static inline void rdram_request_read_close(uint8_t request[RDRAM_REQUEST_BYTES], uint32_t bank, uint32_t row,
                                            uint32_t column)
{
    rdram_request_put(request, RDRAM_REQUEST_READ_CLOSE, bank, row, column);
}

/* Of a write that is in place without them. */
static inline void rdram_request_data(uint8_t request[RDRAM_REQUEST_BYTES], uint16_t mask,
                                      const uint8_t data[RDRAM_DUALOCT_BYTES])
{
    rdram_put(request + 6, mask, 2);
    for (int i = 0; i < RDRAM_DUALOCT_BYTES; i++)
        request[8 + i] = data[i];
}

static inline void rdram_request_write(uint8_t request[RDRAM_REQUEST_BYTES], uint32_t bank, uint32_t row, uint32_t column,
                                       uint16_t mask, const uint8_t data[RDRAM_DUALOCT_BYTES])
{
    rdram_request_put(request, RDRAM_REQUEST_WRITE, bank, row, column);
    rdram_request_data(request, mask, data);
}

static inline void rdram_request_write_close(uint8_t request[RDRAM_REQUEST_BYTES], uint32_t bank, uint32_t row,
                                             uint32_t column, uint16_t mask, const uint8_t data[RDRAM_DUALOCT_BYTES])
{
    rdram_request_put(request, RDRAM_REQUEST_WRITE_CLOSE, bank, row, column);
    rdram_request_data(request, mask, data);
}

static inline void rdram_request_refresh(uint8_t request[RDRAM_REQUEST_BYTES])
{
    rdram_request_put(request, RDRAM_REQUEST_REFRESH, 0, 0, 0);
}

static inline void rdram_request_wait(uint8_t request[RDRAM_REQUEST_BYTES], uint32_t cycles)
{
    rdram_request_put(request, RDRAM_REQUEST_WAIT, 0, 0, 0);
    rdram_put(request + 8, cycles, 4);
}

static inline void rdram_request_flush(uint8_t request[RDRAM_REQUEST_BYTES])
{
    rdram_request_put(request, RDRAM_REQUEST_FLUSH, 0, 0, 0);
}

static inline void rdram_request_close(uint8_t request[RDRAM_REQUEST_BYTES])
{
    rdram_request_put(request, RDRAM_REQUEST_CLOSE, 0, 0, 0);
}

/* ---- Records ---- */

/* kind: enum rdram_kind. data: 0 but for a D. */
typedef struct {
    uint32_t instant;
    uint8_t kind;
    uint64_t word;
    uint8_t data[RDRAM_DUALOCT_BYTES];
} rdram_record;

static inline void rdram_record_put(uint8_t record[RDRAM_RECORD_BYTES], const rdram_record *of)
{
    rdram_put(record, of->instant, 4);
    rdram_put(record + 4, of->kind, 4);
    rdram_put(record + 8, of->word, 8);
    for (int i = 0; i < RDRAM_DUALOCT_BYTES; i++)
        record[16 + i] = of->data[i];
}

/* The three bytes that are 0 in every record are left out. */
static inline rdram_record rdram_record_get(const uint8_t record[RDRAM_RECORD_BYTES])
{
    rdram_record got;
    got.instant = (uint32_t)rdram_get(record, 4);
    got.kind = record[4];
    got.word = rdram_get(record + 8, 8);
    for (int i = 0; i < RDRAM_DUALOCT_BYTES; i++)
        got.data[i] = record[16 + i];
    return got;
}

/*
 * The record of a packet, with the fields of rdram_word_encode. Answers 0, or the number of its refusal,
 * which leaves the record as it was.
 */
RDRAM_ANSWER static inline uint32_t rdram_packet_put(uint8_t record[RDRAM_RECORD_BYTES],
                                                     const uint8_t settings[RDRAM_SETTINGS_BYTES], uint32_t instant,
                                                     uint32_t command, uint32_t bank, uint32_t place, uint32_t mask)
{
    rdram_record of = {instant, RDRAM_KIND_ROW, 0, {0}};
    rdram_word coded = rdram_word_encode(settings, RDRAM_SETTINGS_BYTES, command, bank, place, mask);
    if (coded.number != RDRAM_OK)
        return coded.number;
    of.kind = command <= RDRAM_REFP ? RDRAM_KIND_ROW : RDRAM_KIND_COL;
    of.word = coded.word;
    rdram_record_put(record, &of);
    return RDRAM_OK;
}

/* The packet of a record, as rdram_word_decode answers: refusal 10 for a D. */
static inline rdram_packet rdram_packet_get(const uint8_t record[RDRAM_RECORD_BYTES],
                                            const uint8_t settings[RDRAM_SETTINGS_BYTES])
{
    return rdram_word_decode(settings, RDRAM_SETTINGS_BYTES, record[4], rdram_get(record + 8, 8));
}

/* ---- Planners ---- */

static inline uint32_t rdram_planner_now(const uint8_t planner[RDRAM_PLANNER_BYTES])
{
    return (uint32_t)rdram_get(planner + 752, 4) + 3;
}

/* The bank that the next refresh takes. */
static inline uint32_t rdram_planner_refresh_bank(const uint8_t planner[RDRAM_PLANNER_BYTES])
{
    return (uint32_t)rdram_get(planner + 756, 2);
}

/* ---- Logs: the blocks that a list takes ---- */

static inline uint64_t rdram_blocks(uint64_t records)
{
    return records / RDRAM_BLOCK_RECORDS + (records % RDRAM_BLOCK_RECORDS != 0);
}

static inline uint64_t rdram_stamped_blocks(uint64_t records)
{
    return records / RDRAM_STAMPED_RECORDS + (records % RDRAM_STAMPED_RECORDS != 0);
}

/* ---- Texts ---- */

/* Of an answer's number, enum rdram_refusal. */
static inline const char *rdram_refusal_text(uint32_t number)
{
    static const char *const texts[18] = {
        "accepted", "settings, planner, model or meter out of range, or of another length", "unknown kind of request",
        "a byte that the kind of request does not use is not 0", "bank above 31", "row not below rows",
        "column not below columns", "an instant would pass 1,000,000,000, or is below 4",
        "too little room in the buffer for the answer", "a store of another length",
        "a packet, word or record that has no coding under the settings", "a record breaks a rule",
        "a block is damaged or misplaced", "not whole requests, records, blocks or index words",
        "the index differs from its log", "a close while a write waits", "data less than 4 cycles after the newest",
        "settings in a block are wrong, or differ from those of block 0"};
    return number < 18 ? texts[number] : "unknown number";
}

/* What a record does that breaks rule 1 to 17. */
static inline const char *rdram_rule_text(uint32_t rule)
{
    static const char *const texts[18] = {
        "no rule", "instants fall or are out of range", "ROW too soon after ROW", "COL too soon after COL",
        "ACT while its bank or a neighbour is not closed", "ACT too soon after ACT", "PRER too soon after ACT",
        "ACT too soon after PRER", "PRER too soon after PRER", "a bank that is not open by ACT",
        "RD, WR or a retire too soon after ACT", "WR too soon after RD",
        "too soon for the retire of a waiting write, or RD while two wait",
        "PRER too soon after RD or a retire", "PRER closes the bank of a waiting write",
        "a WR without its D, or a D elsewhere", "a mask on a packet that retires nothing",
        "ROW before an implied PRER, or ROW or WR before a WRA has retired"};
    return rule < 18 ? texts[rule] : texts[0];
}

/* Of enum rdram_command. */
static inline const char *rdram_command_name(uint32_t command)
{
    static const char *const names[9] = {"ACT", "PRER", "REFA", "REFP", "NOCOP", "WR", "RD", "WRA", "RDA"};
    return command < 9 ? names[command] : "unknown";
}

/* ---- Lines of a listing ---- */

/* A line, with the 0 at its end: instant, name, bank, row or column, and the mask in hexadecimal or '-'. */
#define RDRAM_LINE_BYTES 32

/* What the lines before tell: bank and column of the latest WR or WRA, which a D shows. {0, 0} at first. */
typedef struct {
    uint32_t bank, column;
} rdram_lines;

/* Each writes a part of a line, without a 0, and answers where it ends. */
static inline char *rdram_line_text(char *to, const char *text)
{
    while (*text)
        *to++ = *text++;
    return to;
}

static inline char *rdram_line_number(char *to, uint32_t number)
{
    char digits[10];
    int count = 0;
    do
        digits[count++] = (char)('0' + number % 10);
    while (number /= 10);
    while (count > 0)
        *to++ = digits[--count];
    return to;
}

static inline char *rdram_line_mask(char *to, uint32_t mask)
{
    for (int shift = 12; shift >= 0; shift -= 4)
        *to++ = "0123456789abcdef"[mask >> shift & 15];
    return to;
}

/*
 * Writes the line of a record without a line feed, and answers its length. A record without a coding has
 * the line "", of length 0.
 */
static inline size_t rdram_line(rdram_lines *lines, const uint8_t settings[RDRAM_SETTINGS_BYTES],
                                const uint8_t record[RDRAM_RECORD_BYTES], char line[RDRAM_LINE_BYTES])
{
    rdram_packet packet = {RDRAM_OK, 0, 0, 0, RDRAM_MASK_FULL};
    char *to = line;
    *to = 0;
    if (record[4] == RDRAM_KIND_D) {
        packet.bank = lines->bank;
        packet.place = lines->column;
    } else {
        packet = rdram_packet_get(record, settings);
    }
    if (packet.number != RDRAM_OK)
        return 0;
    if (packet.command == RDRAM_WR || packet.command == RDRAM_WRA) {
        lines->bank = packet.bank;
        lines->column = packet.place;
    }
    to = rdram_line_text(rdram_line_number(to, (uint32_t)rdram_get(record, 4)), " ");
    to = rdram_line_text(to, record[4] == RDRAM_KIND_D ? "D" : rdram_command_name(packet.command));
    to = rdram_line_number(rdram_line_text(to, " "), packet.bank);
    to = rdram_line_text(rdram_line_number(rdram_line_text(to, " "), packet.place), " ");
    if (packet.mask == RDRAM_MASK_FULL || record[4] == RDRAM_KIND_ROW)
        *to++ = '-';
    else
        to = rdram_line_mask(to, packet.mask);
    *to = 0;
    return (size_t)(to - line);
}

#endif
