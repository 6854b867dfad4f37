/*
 * Many requests in one call, beside calls of rdram_plan made in turn: stops under every number at
 * every position, rooms that end inside a request, and calls that are refused.
 */
#include "test_plan.h"

#define MOST_REQUESTS 24
#define LONG (MOST_REQUESTS * ROOM)

/* Requests and a room with bytes after what is lent. */
static uint8_t requests[MOST_REQUESTS * REQUEST + 64], requests_before[sizeof requests];
static uint8_t wide[LONG + 64];

/* What calls in turn answer and leave, from the same planner and a room of the same bytes. */
static uint8_t planner_after[sizeof planner], wide_after[sizeof wide];

/* Reads requests, separated by commas; answers their number. */
static size_t use_requests(const char *text)
{
    size_t count = 0;
    memset(requests, 0xA5, sizeof requests);
    for (const char *one = text; one; one = after_comma(one)) {
        use_request(one);
        memcpy(requests + REQUEST * count++, request, REQUEST);
    }
    return count;
}

/* Puts a request at a position, before those from there on. */
static void insert(size_t count, size_t at, const char *text)
{
    use_request(text);
    memmove(requests + REQUEST * (at + 1), requests + REQUEST * at, REQUEST * (count - at));
    memcpy(requests + REQUEST * at, request, REQUEST);
}

static rdram_planned_all in_turn(size_t count, size_t room_len)
{
    rdram_planned_all all = {0, 0, 0};
    memcpy(planner_after, planner, sizeof planner);
    fill(wide_after, sizeof wide_after);
    while (all.place < count) {
        size_t used = RECORD * all.records;
        rdram_planned made = rdram_plan(settings, sizeof settings, planner_after, PLANNER, requests + REQUEST * all.place,
                                        REQUEST, wide_after + used, room_len - used);
        all.number = made.number;
        if (made.number != 0)
            return all;
        all.records += made.records;
        all.place++;
    }
    return all;
}

static rdram_planned_all plan_many(size_t planner_len, size_t requests_len, size_t room_len)
{
    fill(wide, sizeof wide);
    KEEP(settings);
    KEEP(planner);
    KEEP(requests);
    return rdram_plan_all(settings, sizeof settings, planner, planner_len, requests, requests_len, wide, room_len);
}

static int same_answer(rdram_planned_all a, uint32_t number, uint64_t place, uint64_t made)
{
    return a.number == number && a.place == place && a.records == made;
}

/* One call does what the calls in turn do, which end with this number and position. */
static int like_singles(size_t count, size_t room_len, uint32_t number, size_t place)
{
    rdram_planned_all wanted = in_turn(count, room_len);
    rdram_planned_all all = plan_many(PLANNER, REQUEST * count, room_len);
    return same_answer(all, wanted.number, wanted.place, wanted.records) && all.number == number && all.place == place
        && memcmp(planner, planner_after, sizeof planner) == 0 && memcmp(wide, wide_after, sizeof wide) == 0
        && STAYS(settings) && STAYS(requests);
}

/* Refused with this number, and no buffer changed. */
static int refuses_all(uint32_t number, size_t planner_len, size_t requests_len, size_t room_len)
{
    rdram_planned_all all = plan_many(planner_len, requests_len, room_len);
    fill(wide_after, sizeof wide_after);
    return same_answer(all, number, 0, 0) && STAYS(planner) && memcmp(wide, wide_after, sizeof wide) == 0
        && STAYS(settings) && STAYS(requests);
}

/* Requests of every kind. After the second one a write waits, until the flush. */
static const char STREAM[] =
    "read 0 0 1, write 0 0 1 0003, write 4 1 2 FFFF, read 4 1 3, wait 7, write 9 0 0 8001, refresh, write 31 1 3 0, "
    "reada 20 1 2, read 31 1 2, write 2 0 0 0F0F, flush, reada 2 0 1, writea 31 0 1 00FF, writea 2 1 0 FFFF, close";
#define STREAM_REQUESTS 16
#define WAITS_AFTER 1
#define FLUSH_AT 11

/* The stream again and again, with every room up to the one that it needs. */
void test_many(void)
{
    begin();
    size_t count = use_requests(STREAM);
    check(count == STREAM_REQUESTS && like_singles(count, LONG, 0, count), "the stream");
    size_t needed = RECORD * in_turn(count, LONG).records;
    check(like_singles(count, LONG, 0, count) && like_singles(count, LONG, 0, count), "the stream twice more");
    begin();
    uint8_t first[PLANNER];
    memcpy(first, planner, PLANNER);
    int ok = 1;
    for (size_t room_len = 0; room_len <= needed + RECORD; room_len++) {
        memcpy(planner, first, PLANNER);
        rdram_planned_all wanted = in_turn(count, room_len);
        ok &= like_singles(count, room_len, wanted.number, wanted.place);
        ok &= wanted.place == count || wanted.number == RDRAM_REFUSED_FULL;
    }
    check(ok, "rooms that end inside a request");
}

/* A request that is refused, at every position. */
void test_many_stops(void)
{
    static const struct {
        uint32_t number;
        const char *text;
    } BAD[] = {
        {3, "refresh 1"}, {4, "read 32 0 0"}, {5, "write 0 2 0 1"}, {6, "read 0 0 4"}, {7, "wait 4294967295"}, {15, "close"}};
    for (size_t i = 0; i < COUNT(BAD); i++)
        for (size_t at = BAD[i].number == 15 ? WAITS_AFTER + 1 : 0; at <= FLUSH_AT; at++) {
            begin();
            size_t count = use_requests(STREAM);
            insert(count, at, BAD[i].text);
            check(like_singles(count + 1, LONG, BAD[i].number, at), "stop %" PRIu32 " at %zu", BAD[i].number, at);
        }
    for (size_t at = 0; at < STREAM_REQUESTS; at++) {
        begin();
        size_t count = use_requests(STREAM);
        requests[REQUEST * at] = 200;
        check(like_singles(count, LONG, RDRAM_REFUSED_KIND, at), "stop 2 at %zu", at);
    }
    check(plan_all("write 0 0 0 1"), "a write that waits");
    use_requests("close, read 0");
    check(like_singles(2, LONG, RDRAM_REFUSED_UNRETIRED, 0), "stop 15 at 0");
}

/* After a stop for want of room the rest is planned into another one: the same list as by one call. */
void test_many_again(void)
{
    static uint8_t one_list[LONG];
    begin();
    size_t count = use_requests(STREAM), records_in_all = 0, calls = 0;
    rdram_planned_all whole = plan_many(PLANNER, REQUEST * count, LONG);
    uint8_t last[PLANNER];
    memcpy(last, planner, PLANNER);
    memcpy(one_list, wide, sizeof one_list);
    check(whole.number == 0, "the stream in one call");
    begin();
    for (size_t at = 0; at < count && calls <= count; calls++) {
        rdram_planned_all part = rdram_plan_all(settings, sizeof settings, planner, PLANNER, requests + REQUEST * at,
                                                REQUEST * (count - at), wide, 6 * RECORD);
        check(part.number == (at + part.place < count ? RDRAM_REFUSED_FULL : 0), "part %zu", calls);
        check(memcmp(wide, one_list + RECORD * records_in_all, RECORD * part.records) == 0, "list of part %zu", calls);
        at += part.place;
        records_in_all += part.records;
    }
    check(records_in_all == whole.records && calls > 3, "as many records in parts");
    check(memcmp(planner, last, PLANNER) == 0, "the same planner in parts");
}

/* An empty file is accepted; bad settings, a bad planner and a broken length refuse the call. */
void test_many_refused(void)
{
    begin();
    size_t count = use_requests(STREAM);
    check(like_singles(0, LONG, 0, 0) && like_singles(0, 0, 0, 0), "an empty file");
    rdram_planned_all none = rdram_plan_all(settings, sizeof settings, planner, PLANNER, NULL, 0, NULL, 0);
    check(same_answer(none, 0, 0, 0) && STAYS(planner), "an empty file at null pointers");
    int ok = 1;
    for (size_t length = 0; length <= REQUEST * count; length++)
        if (length % REQUEST != 0)
            ok &= refuses_all(RDRAM_REFUSED_LENGTH, PLANNER, length, LONG);
    requests[0] = 200;
    check(ok && refuses_all(RDRAM_REFUSED_LENGTH, PLANNER, REQUEST + 1, LONG), "broken lengths");
    ok = 1;
    for (size_t length = 0; length < sizeof planner; length += 96)
        if (length != PLANNER)
            ok &= refuses_all(RDRAM_REFUSED_SETTINGS, length, REQUEST * count, LONG);
    check(ok && refuses_all(RDRAM_REFUSED_SETTINGS, PLANNER - 1, 1, 0), "planners of another length");
    planner[729] = 1;
    check(refuses_all(RDRAM_REFUSED_SETTINGS, PLANNER, REQUEST * count, LONG), "a bad planner");
    check(refuses_all(RDRAM_REFUSED_SETTINGS, PLANNER, 0, 0) && refuses_all(RDRAM_REFUSED_SETTINGS, PLANNER, 1, 0),
          "a bad planner before the length");
    begin();
    for (int figure = 0; figure < 16; figure++) {
        use_bad_figure(figure);
        check(refuses_all(RDRAM_REFUSED_SETTINGS, PLANNER, REQUEST * count, LONG)
                  && refuses_all(RDRAM_REFUSED_SETTINGS, PLANNER, 1, 0) && refuses_all(RDRAM_REFUSED_SETTINGS, PLANNER, 0, 0),
              "settings number %d", figure);
    }
}

/* Near the last instant: the request that would pass it is refused, and those before it stay planned. */
void test_many_late(void)
{
    for (unsigned cycles = 999999900; cycles <= 999999996; cycles += 8) {
        char text[100];
        snprintf(text, sizeof text, "wait %u, reada 0, write 4 1 1 0003, writea 9 0 0 FFFF, read 9, flush, close", cycles);
        begin();
        size_t count = use_requests(text);
        rdram_planned_all wanted = in_turn(count, LONG);
        check(like_singles(count, LONG, wanted.number, wanted.place), "%s", text);
        check(wanted.place == count || wanted.number == 7 || wanted.number == 15, "why it stops: %s", text);
    }
}
