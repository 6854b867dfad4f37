/* Requests, the buffers that a call is lent, and calls with what must not change. */
#include "test_plan.h"

uint8_t planner[PLANNER + 64], planner_before[sizeof planner];
uint8_t request[2 * REQUEST], room[ROOM + 64];
uint8_t list[MOST * RECORD];
size_t records;
uint32_t banks;
static uint8_t request_before[sizeof request], room_before[sizeof room];
static unsigned writes; /* requests to write so far, from which their data come */

void put_data(uint8_t *to, unsigned n)
{
    for (int i = 0; i < 16; i++)
        to[i] = (uint8_t)(50 * n + i + 1);
}

void use_request(const char *text)
{
    static const char *const NAMES[] = {"read", "write", "refresh", "wait", "flush", "close", "reada", "writea"};
    unsigned bank = 0, row = 0, column = 0, mask = 0;
    char name[8] = "";
    sscanf(text, " %7[a-z] %u %u %u %x", name, &bank, &row, &column, &mask);
    memset(request, 0, sizeof request);
    while (strcmp(NAMES[request[0]], name) != 0)
        request[0]++;
    if (request[0] == RDRAM_REQUEST_WAIT) {
        put(request + 8, bank, 4);
        return;
    }
    put(request + 1, bank, 1);
    put(request + 2, row, 2);
    put(request + 4, column, 1);
    put(request + 6, mask, 2);
    if (request[0] == RDRAM_REQUEST_WRITE || request[0] == RDRAM_REQUEST_WRITE_CLOSE)
        put_data(request + 8, writes++);
}

void remember(void)
{
    fill(room, sizeof room);
    KEEP(settings);
    KEEP(planner);
    KEEP(request);
    KEEP(room);
}

static int same_inputs(void)
{
    return STAYS(settings) && STAYS(request);
}

int refuses(uint32_t number, size_t planner_len, size_t request_len, size_t room_len)
{
    remember();
    rdram_planned made =
        rdram_plan(settings, sizeof settings, planner, planner_len, request, request_len, room, room_len);
    return made.number == number && made.banks == 0 && made.records == 0 && STAYS(planner) && STAYS(room) && same_inputs();
}

int accepts(size_t room_len)
{
    remember();
    rdram_planned made = rdram_plan(settings, sizeof settings, planner, PLANNER, request, REQUEST, room, room_len);
    size_t used = RECORD * made.records;
    if (made.number != RDRAM_OK || used > room_len || RECORD * records + used > sizeof list)
        return 0;
    memcpy(list + RECORD * records, room, used);
    records += made.records;
    banks = made.banks;
    return memcmp(room + used, room_before + used, sizeof room - used) == 0
        && memcmp(planner + PLANNER, planner_before + PLANNER, sizeof planner - PLANNER) == 0 && same_inputs();
}

void begin(void)
{
    use_set_h();
    memset(planner, 0xA5, sizeof planner);
    check(rdram_planner_fresh(planner, PLANNER) == 0, "a fresh planner");
    records = 0;
    writes = 0;
}

int plan_more(const char *text)
{
    int ok = 1;
    for (const char *one = text; one; one = after_comma(one)) {
        use_request(one);
        ok &= accepts(ROOM);
    }
    return ok;
}

int plan_all(const char *text)
{
    begin();
    return plan_more(text);
}

int list_passes(void)
{
    return rdram_check(settings, sizeof settings, list, RECORD * records).number == 0;
}
