/* Records as text, with what becomes of them, run through a model. */
#include "test_model.h"

static unsigned open_row[32]; /* rows of the ACTs so far */

int read_right(void)
{
    uint64_t word = get(record + 8, 8);
    unsigned bank = word >> 29 & 31, column = word >> 21 & 127;
    return memcmp(answer, dualoct(store_before, bank, open_row[bank], column), DUALOCT) == 0;
}

/* One record and what becomes of it. */
static int line_right(const char *line)
{
    char becomes[8] = "";
    unsigned number = 0, bank = 0, row = 0;
    const char *colon = strchr(line, ':'), *next = strchr(line, ',');
    if (colon && (!next || colon < next))
        sscanf(colon + 1, " %7[a-z] %u", becomes, &number);
    use_record(line);
    if (strcmp(becomes, "rule") == 0)
        return refuses(RDRAM_REFUSED_RULE, number, DUALOCT);
    if (strcmp(becomes, "refused") == 0)
        return refuses(number, 0, DUALOCT);
    if (sscanf(line, "%*u ACT %u %u", &bank, &row) > 0)
        open_row[bank] = row;
    rdram_stepped got = step(DUALOCT);
    if (strcmp(becomes, "reads") == 0)
        return is(got, 0, 0, RDRAM_EVENT_READ, 0) && read_right() && store_stays() && guards_stay();
    if (strcmp(becomes, "wrote") == 0)
        return is(got, 0, 0, RDRAM_EVENT_RETIRED, number) && answer_stays() && guards_stay();
    return is(got, 0, 0, RDRAM_EVENT_NONE, 0) && answer_stays() && store_stays() && guards_stay();
}

void run_more(const char *text)
{
    for (const char *line = text; line; line = after_comma(line))
        check(line_right(line), "record '%.24s' of: %s", line, text);
}

void run(const char *text)
{
    begin();
    run_more(text);
}
