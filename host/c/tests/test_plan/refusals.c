/* Requests, lengths, settings, null pointers and instants that are refused, and which refusal comes first. */
#include "test_plan.h"

void test_requests(void)
{
    plan_all("write 0 0 1 0003");
    static const struct {
        uint32_t number;
        const char *text;
    } PLACES[] = {
        {4, "read 32 0 0"}, {4, "write 255 0 0 FFFF"}, {5, "read 0 2 0"}, {5, "write 0 65535 0 1"},
        {6, "read 0 0 4"}, {6, "write 31 1 255 0"},
        /* several faults: the first of 3, 4, 5, 6 */
        {3, "read 32 2 4 1"}, {4, "read 32 2 4"}, {5, "read 31 2 4"},
        {3, "refresh 1"}, {3, "refresh 32"}, {3, "flush 0 0 1"}, {3, "close 32"},
        {4, "reada 32 0 0"}, {4, "writea 255 0 0 FFFF"}, {5, "reada 0 2 0"}, {5, "writea 0 65535 0 1"},
        {6, "reada 0 0 4"}, {6, "writea 31 1 255 0"}, {3, "reada 32 2 4 1"}, {4, "reada 32 2 4"}, {5, "writea 31 2 4"},
        /* the write waits: after 2 to 6, before the horizon and the room */
        {15, "close"}};
    for (size_t i = 0; i < COUNT(PLACES); i++) {
        use_request(PLACES[i].text);
        check(refuses(PLACES[i].number, PLANNER, REQUEST, ROOM), "refusal %" PRIu32 ": %s", PLACES[i].number,
              PLACES[i].text);
    }
    for (int kind = 8; kind < 256; kind++) {
        use_request("read 0 0 0");
        request[0] = (uint8_t)kind;
        request[23] = (uint8_t)kind; /* the kind before the spare bytes */
        check(refuses(RDRAM_REFUSED_KIND, PLANNER, REQUEST, ROOM), "kind %d", kind);
    }
}

static int uses(int kind, int byte)
{
    int writes = kind == RDRAM_REQUEST_WRITE || kind == RDRAM_REQUEST_WRITE_CLOSE;
    if (byte >= 1 && byte <= 4)
        return writes || kind == RDRAM_REQUEST_READ || kind == RDRAM_REQUEST_READ_CLOSE;
    if (byte >= 8 && byte <= 11)
        return writes || kind == RDRAM_REQUEST_WAIT;
    return byte == 0 || (byte != 5 && writes);
}

void test_spare_bytes(void)
{
    static const char *const KINDS[] = {"read 0 0 0", "write 0 0 0 1", "refresh",    "wait 1",
                                        "flush",      "close",         "reada 0 0 0", "writea 0 0 0 1"};
    begin();
    for (int kind = 0; kind <= RDRAM_REQUEST_WRITE_CLOSE; kind++)
        for (int byte = 0; byte < REQUEST; byte++)
            if (!uses(kind, byte)) {
                use_request(KINDS[kind]);
                request[byte] = 0x80;
                check(refuses(RDRAM_REFUSED_SPARE, PLANNER, REQUEST, ROOM), "%s, byte %d", KINDS[kind], byte);
            }
}

void test_lengths(void)
{
    begin();
    int ok = 1;
    use_request("read 0 0 0");
    for (size_t length = 0; length <= 2 * REQUEST; length++)
        if (length != REQUEST)
            ok &= refuses(RDRAM_REFUSED_LENGTH, PLANNER, length, ROOM);
    check(ok, "requests of another length");
    ok = 1;
    for (size_t length = 0; length < sizeof planner; length++)
        if (length != PLANNER)
            ok &= refuses(RDRAM_REFUSED_SETTINGS, length, REQUEST, ROOM);
    check(ok, "planners of another length");
    check(refuses(RDRAM_REFUSED_SETTINGS, PLANNER - 1, REQUEST - 1, 0), "the planner before the request");
    request[0] = 8;
    check(refuses(RDRAM_REFUSED_LENGTH, PLANNER, REQUEST - 1, 0), "the length before the kind");
}

static int refused_by_settings(const uint8_t *bytes, size_t length)
{
    remember();
    rdram_planned made = rdram_plan(bytes, length, planner, PLANNER, request, REQUEST - 1, room, 0);
    return made.number == RDRAM_REFUSED_SETTINGS && made.records == 0 && STAYS(planner);
}

void test_settings(void)
{
    begin();
    use_request("close");
    for (int figure = 0; figure < 16; figure++) {
        use_bad_figure(figure);
        check(refused_by_settings(settings, sizeof settings), "settings number %d", figure);
    }
    use_set_h();
    check(refused_by_settings(settings, 31), "settings of 31 bytes");
    check(refused_by_settings(NULL, 0), "null settings");
}

void test_null_pointers(void)
{
    begin();
    use_request("close");
    remember();
    rdram_planned made = rdram_plan(settings, sizeof settings, planner, PLANNER, request, REQUEST, NULL, 0);
    check(made.number == 0 && made.records == 0, "null room for no record");
    made = rdram_plan(settings, sizeof settings, planner, PLANNER, NULL, 0, NULL, 0);
    check(made.number == RDRAM_REFUSED_LENGTH && made.records == 0, "null request");
    made = rdram_plan(settings, sizeof settings, NULL, 0, request, REQUEST, NULL, 0);
    check(made.number == RDRAM_REFUSED_SETTINGS && made.records == 0, "null planner");
}

/* A close while one write waits, or two, whatever the room and the instant; a flush, and then a close, are accepted. */
void test_unretired(void)
{
    static const char *const WRITES[] = {
        "write 0 0 0 0003", "write 0 0 0 0003, write 0 0 1 0006", "write 0, read 9", "wait 999999989, write 31 1 3 0001"};
    for (size_t i = 0; i < COUNT(WRITES); i++) {
        check(plan_all(WRITES[i]), "%s", WRITES[i]);
        use_request("close");
        int ok = refuses(RDRAM_REFUSED_UNRETIRED, PLANNER, REQUEST, ROOM);
        check(ok && refuses(RDRAM_REFUSED_UNRETIRED, PLANNER, REQUEST, 0), "close after: %s", WRITES[i]);
        if (i < 3)
            check(plan_more("flush, close, flush, close") && list_passes(), "flush and close after: %s", WRITES[i]);
    }
    use_request("close 0 0 0 1");
    check(refuses(RDRAM_REFUSED_SPARE, PLANNER, REQUEST, ROOM), "spare before unretired");
    use_request("flush");
    check(refuses(RDRAM_REFUSED_HORIZON, PLANNER, REQUEST, ROOM), "a flush past the last instant");
}

/* Under this tOFFP the request is accepted after a wait of so many cycles, and refused after one more. */
void test_horizon(void)
{
    static const struct {
        unsigned cycles, offp;
        const char *text;
    } LATEST[] = {
        {999999996, 4, "wait 0"}, {999999995, 4, "wait 1"}, {999999979, 4, "read 0 0 0"},
        {999999989, 4, "write 0 0 0 0"}, {999999976, 4, "refresh"},
        /* its data, or the implied PRER, at the last instant: RDA 20 or 13, NOCOP 20 or 13 after a fresh planner */
        {999999972, 4, "reada 0 0 0"}, {999999955, 32, "reada 0 0 0"},
        {999999976, 4, "writea 0 0 0 0"}, {999999955, 32, "writea 0 0 0 0"}};
    char text[40];
    for (size_t i = 0; i < COUNT(LATEST); i++)
        for (unsigned late = 0; late < 2; late++) {
            snprintf(text, sizeof text, "wait %u", LATEST[i].cycles + late);
            begin();
            use_figure(T_OFFP, LATEST[i].offp);
            use_request(text);
            if (LATEST[i].cycles + late > 999999996) {
                check(refuses(RDRAM_REFUSED_HORIZON, PLANNER, REQUEST, ROOM), "%s", text);
                continue;
            }
            check(accepts(0), "%s", text);
            use_request(LATEST[i].text);
            check(late ? refuses(RDRAM_REFUSED_HORIZON, PLANNER, REQUEST, 0) : accepts(ROOM), "%s, %s, tOFFP %u", text,
                  LATEST[i].text, LATEST[i].offp);
        }
    begin();
    use_request("wait 4294967295");
    check(refuses(RDRAM_REFUSED_HORIZON, PLANNER, REQUEST, ROOM), "the longest wait");
}
