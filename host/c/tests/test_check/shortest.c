/*
 * The shortest run that still breaks: lists with the run that is expected, and thousands of planned
 * lists with one record changed, against rdram_check from every start.
 */
#include "test_check.h"

_Static_assert(sizeof(rdram_shortest_run) == 24, "layout of rdram_shortest_run");
_Static_assert(offsetof(rdram_shortest_run, place) == 8, "layout of rdram_shortest_run");
_Static_assert(offsetof(rdram_shortest_run, start) == 16, "layout of rdram_shortest_run");

static int answers(const uint8_t *from, size_t length, uint32_t number, uint32_t rule, uint64_t place, uint64_t start)
{
    rdram_shortest_run run = rdram_shortest(settings, sizeof settings, from, length);
    return run.number == number && run.rule == rule && run.place == place && run.start == start;
}

void test_shortest_lists(void)
{
    static const struct {
        const char *text;
        uint32_t rule;
        uint64_t place, start;
    } LISTS[] = {
        {"4 ACT 0, 12 RD 0 1", 10, 1, 0},
        {"4 ACT 5, 13 RD 5, 17 RD 0 1", 9, 2, 2},
        {"4 ACT 5, 12 D", 15, 1, 1},
        /* the starts that have it are not in one piece */
        {"4 ACT 0, 13 RD 0 1, 35 PRER 5, 38 PRER 9", 2, 3, 2},
        {"4 ACT 5, 12 ACT 0, 21 RD 0 1, 25 RD 0, 40 ACT 1", 4, 4, 1},
        {"4 ACT 5, 12 ACT 0, 21 RD 0 1, 25 RD 5, 40 ACT 1", 4, 4, 0},
        {"4 ACT 0, 5 WR 0, 11 D, 9 WR 0 1, 17 NOCOP", 15, 4, 0},
        {"4 ACT 0, 5 WR 0, 11 D, 13 NOCOP 0 0 0003, 17 NOCOP 0 0 0003", 16, 4, 4},
        /* the record after the bad one is not looked at */
        {"4 PRER 0, 11 PRER 9, 12 D", 8, 1, 0},
        {"4 PRER 3, 12 ACT 0, 28 RDA 0, 31 ACT 20", 17, 3, 1},
    };
    for (size_t i = 0; i < COUNT(LISTS); i++) {
        use_list(LISTS[i].text);
        remember();
        check(answers(list, records * RECORD, 11, LISTS[i].rule, LISTS[i].place, LISTS[i].start), "shortest run: %s", LISTS[i].text);
        check(list_is(records * RECORD, 11, LISTS[i].rule, LISTS[i].place), "and nothing is written: %s", LISTS[i].text);
    }
    use_list("4 ACT 0, 13 RD 0 1");
    check(answers(list, records * RECORD, 0, 0, 0, 0), "a list that passes has no run");
    check(answers(NULL, 0, 0, 0, 0, 0), "an empty list passes");
    check(answers(list, records * RECORD - 1, 13, 0, 0, 0), "13 before the run");
    use_list("4 RD 0, 13 RD 0 1");
    list[RECORD + 5] = 1;
    check(answers(list, records * RECORD, 10, 0, 1, 0), "10 before the run");
    use_bad_figure(0);
    check(answers(list, records * RECORD, 1, 0, 0, 0), "1 before the run");
    use_set_h();
}

/* ---- Every start ---- */

static uint32_t below(uint32_t n)
{
    static uint64_t x = 0x9E3779B97F4A7C15u;
    x ^= x << 13;
    x ^= x >> 7;
    x ^= x << 17;
    return (uint32_t)(x >> 33) % n;
}

static uint8_t made[400 * RECORD], made_before[sizeof made];

/* The records of random requests, in few banks, so that they meet; answers how many. */
static size_t plan_random(int requests)
{
    static const uint8_t KINDS[] = {0, 0, 0, 1, 1, 1, 2, 3, 4, 5, 6, 7};
    uint8_t planner[RDRAM_PLANNER_BYTES];
    size_t length = 0;
    check(rdram_planner_fresh(planner, sizeof planner) == 0, "a fresh planner");
    for (int i = 0; i < requests; i++) {
        uint8_t request[RDRAM_REQUEST_BYTES] = {KINDS[below(sizeof KINDS)]};
        int kind = request[0], writes = kind == 1 || kind == 7;
        if (kind == 3)
            request[8] = (uint8_t)below(30);
        if (kind == 0 || kind == 6 || writes) {
            request[1] = (uint8_t)below(6);
            request[2] = (uint8_t)below(2);
            request[4] = (uint8_t)below(4);
        }
        if (writes)
            put(request + 6, below(2) ? 0xFFFF : below(0x10000), 2);
        rdram_planned p = rdram_plan(settings, sizeof settings, planner, sizeof planner, request, sizeof request,
                                     made + length, sizeof made - length);
        length += p.records * RECORD;
    }
    return length / RECORD;
}

/* Changes one record: its instant, or its bank; or leaves it out. */
static size_t change(size_t count)
{
    size_t i = below((uint32_t)count);
    uint8_t *record = made + i * RECORD;
    switch (below(4)) {
    case 0:
    case 1: put(record, get(record, 4) + below(13) - 6, 4); return count;
    case 2:
        if (record[4] == RDRAM_KIND_ROW) /* bits 13 to 17; bits 29 to 33 of a COL word that has a bank */
            put(record + 8, get(record + 8, 8) ^ (uint64_t)(1 + below(3)) << 13, 8);
        else if (record[4] == RDRAM_KIND_COL && (get(record + 8, 8) >> 17 & 15) != 0)
            put(record + 8, get(record + 8, 8) ^ (uint64_t)(1 + below(3)) << 29, 8);
        return count;
    default: memmove(record, record + RECORD, (count - i - 1) * RECORD); return count - 1;
    }
}

/* The last start whose run is refused first at its last record by the same rule. */
static uint64_t by_all_starts(rdram_judged whole)
{
    for (uint64_t start = whole.place; start > 0; start--) {
        rdram_judged run = rdram_check(settings, sizeof settings, made + start * RECORD, (whole.place - start + 1) * RECORD);
        if (run.number == 11 && run.rule == whole.rule && run.place == whole.place - start)
            return start;
    }
    return 0;
}

void test_shortest_by_all_starts(void)
{
    int refused = 0, inside = 0, ok = 1;
    uint32_t rules = 0;
    for (int round = 0; round < 6000; round++) {
        use_core((unsigned)round % CORES);
        size_t count = plan_random(1 + (int)below(24));
        if (count > 0)
            count = change(count);
        size_t length = count * RECORD;
        memcpy(made_before, made, sizeof made);
        rdram_judged whole = rdram_check(settings, sizeof settings, made, length);
        uint64_t start = whole.number == 11 ? by_all_starts(whole) : 0;
        ok &= answers(made, length, whole.number, whole.rule, whole.place, start);
        ok &= memcmp(made, made_before, sizeof made) == 0;
        refused += whole.number == 11;
        inside += start > 0;
        rules |= whole.number == 11 ? 1u << whole.rule : 0;
    }
    use_set_h();
    check(ok, "the shortest run by every start");
    check(refused > 2000 && inside > 1000, "lists with a run: %d, inside the list: %d", refused, inside);
    check((rules & (1u << 1 | 1u << 2 | 1u << 4 | 1u << 9 | 1u << 10 | 1u << 15)) == (1u << 1 | 1u << 2 | 1u << 4 | 1u << 9 | 1u << 10 | 1u << 15),
          "the rules that were broken: %" PRIx32, rules);
}
