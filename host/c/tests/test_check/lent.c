/* The list and the log that the calls are lent, of which they must change no byte. */
#include "test_check.h"

uint8_t list[MOST * RECORD + 64], block_log[3 * BLOCK];
size_t records;
static uint8_t list_before[sizeof list], block_log_before[sizeof block_log];

void add(const char *line)
{
    uint8_t *record = list + RECORD * records++;
    if (put_line(record, line))
        memset(record + 16, 0xA5, 16);
}

void use_list(const char *text)
{
    use_set_h();
    records = 0;
    for (const char *line = text; line; line = after_comma(line))
        add(line);
}

size_t make_log(void)
{
    return put_log(block_log, list, records);
}

void remember(void)
{
    KEEP(settings);
    KEEP(list);
    KEEP(block_log);
}

static int unchanged(void)
{
    return STAYS(settings) && STAYS(list) && STAYS(block_log);
}

int is(rdram_judged answer, uint32_t number, uint32_t rule, uint64_t place)
{
    return answer.number == number && answer.rule == rule && answer.place == place && unchanged();
}

int list_is(size_t length, uint32_t number, uint32_t rule, uint64_t place)
{
    remember();
    return is(rdram_check(settings, sizeof settings, list, length), number, rule, place);
}

int log_is(size_t length, uint32_t number, uint32_t rule, uint64_t place)
{
    remember();
    return is(rdram_check_log(settings, sizeof settings, block_log, length), number, rule, place);
}

int both_are(uint32_t number, uint32_t rule, uint64_t place)
{
    return list_is(RECORD * records, number, rule, place) && log_is(make_log(), number, rule, place);
}
