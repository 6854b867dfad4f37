/*
 * Pages of the channel against a drawing that is made here, from documents 01 and 02 k alone: each
 * character is looked for over all records of the list. Lists are planned from random requests.
 */
#include "common.h"

enum { MOST = 600, PAGE = RDRAM_PAGE_BYTES };

static uint8_t list[MOST * RECORD + 1], room[PAGE + 9], room_before[PAGE + 9];
static uint8_t wanted[PAGE];
static size_t records;
static uint32_t drawn = 2025;

static unsigned draw(unsigned below) {
    drawn = drawn * 1664525u + 1013904223u;
    return (drawn >> 8) % below;
}

/* The letter of a record at a cycle of a line, or 0. Cycles are counted from 4 below 0 on. */
static char letter(const uint8_t *record, int line, uint64_t cycle, unsigned cac) {
    uint64_t at = get(record, 4), word = get(record + 8, 8);
    int on_packet = cycle + 4 >= at && cycle < at;
    if (record[4] == 2)
        return line == 2 && cycle >= at && cycle < at + 4 ? 'D' : 0;
    if (record[4] == 0) {
        unsigned rop = word & 0x7FF;
        if (line != 0 || !on_packet)
            return 0;
        return word >> 12 & 1 ? 'A' : rop == 0x600 ? 'P' : rop == 0x0C0 ? 'F' : 'E';
    }
    unsigned cop = word >> 17 & 15, reads = cop == 3 || cop == 7;
    if (line == 1 && on_packet)
        return reads ? 'R' : cop == 0 ? 'N' : 'W';
    return line == 2 && reads && cycle >= at + cac && cycle < at + cac + 4 ? 'Q' : 0;
}

/* The page that is wanted; answers whether no two marks meet. */
static int want(uint32_t start, unsigned cac) {
    static const char *const names[] = {"ROW     ", "COL     ", "DQ      ", "        "};
    int met = 0;
    for (int line = 0; line < 4; line++) {
        uint8_t *to = wanted + line * 73;
        memcpy(to, names[line], 8);
        to[72] = '\n';
        for (unsigned k = 0; k < 64; k++) {
            uint64_t cycle = (uint64_t)start + k;
            char found = 0;
            for (size_t i = 0; line < 3 && i < records; i++) {
                char c = letter(list + i * RECORD, line, cycle, cac);
                met += c && found;
                found = c ? c : found;
            }
            to[8 + k] = (uint8_t)(line == 3 ? cycle % 8 ? ' ' : '|' : found ? found : '.');
        }
    }
    return met == 0;
}

/* Requests of all kinds, the first a wait of so many cycles. */
static void plan(unsigned requests, uint32_t wait) {
    uint8_t planner[RDRAM_PLANNER_BYTES];
    check(rdram_planner_fresh(planner, sizeof planner) == 0, "a fresh planner");
    records = 0;
    for (unsigned i = 0; i < requests; i++) {
        uint8_t request[RDRAM_REQUEST_BYTES] = {(uint8_t)draw(8)};
        unsigned kind = i ? request[0] : RDRAM_REQUEST_WAIT;
        request[0] = (uint8_t)kind;
        if (kind < 2 || kind > 5) {
            request[1] = (uint8_t)draw(4);
            request[2] = (uint8_t)draw(2);
            request[4] = (uint8_t)draw(4);
        }
        if (kind == RDRAM_REQUEST_WRITE || kind == RDRAM_REQUEST_WRITE_CLOSE) {
            put(request + 6, draw(0x10000), 2);
            put(request + 8, draw(1 << 20), 8);
        }
        if (kind == RDRAM_REQUEST_WAIT)
            put(request + 8, i ? draw(12) : wait, 4);
        records += rdram_plan(settings, sizeof settings, planner, sizeof planner, request, sizeof request,
                              list + records * RECORD, (MOST - records) * RECORD).records;
    }
}

static rdram_judged page(size_t length, uint32_t start, size_t size) {
    fill(room, sizeof room);
    KEEP(room);
    return rdram_page(settings, sizeof settings, list, length, start, room, size);
}

static int is(rdram_judged a, uint32_t number, uint32_t rule, uint64_t place) {
    return a.number == number && a.rule == rule && a.place == place;
}

/* A page at this start is the one of here, and the bytes after it stay. */
static void drawn_at(uint32_t start, unsigned cac) {
    int apart = want(start, cac);
    rdram_judged a = page(records * RECORD, start, sizeof room);
    check(is(a, 0, 0, 0) && apart && !memcmp(room, wanted, PAGE) && !memcmp(room + PAGE, room_before + PAGE, sizeof room - PAGE),
          "page of %zu records at %" PRIu32 "\n%.*s", records, start, PAGE, (const char *)room);
}

static void refused(void) {
    size_t length = records * RECORD;
    uint8_t kept = settings[0];
    check(is(page(length, LAST + 1, sizeof room), 7, 0, 0) && STAYS(room), "start above the last instant");
    check(is(page(length + 1, LAST + 1, 0), 13, 0, 0) && STAYS(room), "a broken list, before 7 and 8");
    check(is(page(length, 0, PAGE - 1), 8, 0, 0) && STAYS(room), "no room");
    settings[0] = 1;
    check(is(page(length + 1, LAST + 1, 0), 1, 0, 0) && STAYS(room), "settings first");
    settings[0] = kept;
    list[RECORD + 5] = 1;
    check(is(page(length, LAST + 1, 0), 7, 0, 0) && STAYS(room), "7 before 10");
    check(is(page(length, 0, 0), 10, 0, 1) && STAYS(room), "10 before 8");
    list[RECORD + 5] = 0;
    put(list, 3, 4);
    check(is(page(length, 0, 0), 11, 1, 0) && STAYS(room), "11 before 8");
}

int main(void) {
    static const uint32_t waits[] = {0, 0, 5, 400, LAST - 300, LAST - 40};
    use_set_h();
    records = 0;
    drawn_at(0, SET_H[10]);
    drawn_at(LAST, SET_H[10]);
    for (int round = 0; round < 60; round++) {
        unsigned cac = 7 + draw(6);
        use_set_h();
        use_core(draw(CORES));
        use_figure(10, cac);
        use_figure(11, 1 + draw(cac - 1));
        plan(30, waits[round % COUNT(waits)]);
        for (uint32_t start = 0; start < 5; start++)
            drawn_at(start, cac);
        for (uint32_t start = LAST - 66; start <= LAST; start += 1 + draw(5))
            drawn_at(start, cac);
        for (int i = 0; i < 40 && records > 0; i++) {
            uint32_t at = (uint32_t)get(list + draw((unsigned)records) * RECORD, 4) + 16, back = draw(90);
            at = at > back ? at - back : 0;
            drawn_at(at > LAST ? LAST : at, cac);
        }
        if (records > 1)
            refused();
    }
    return report();
}
