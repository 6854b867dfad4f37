/* The list and the log that calls are lent, and the calls with what must not change. */
#include "test.h"

uint8_t list[MOST * RECORD + 64], list_before[sizeof list];
uint8_t block_log[4 * BLOCK + 64], block_log_before[sizeof block_log];

void use(unsigned rows, unsigned columns, unsigned device)
{
    use_set_h();
    use_figure(13, rows);
    use_figure(14, columns);
    use_figure(15, device);
}

static void put_data(uint8_t *record, uint32_t instant, int seed)
{
    put_packet(record, instant, RDRAM_KIND_D, 0);
    for (int i = 0; i < 16; i++)
        record[16 + i] = (uint8_t)(seed * 29 + i * 7);
}

void make_list(size_t records)
{
    fill(list, sizeof list);
    for (size_t i = 0; i < records; i++) {
        uint8_t *record = list + RECORD * i;
        unsigned n = (unsigned)i, bank = n % 32;
        uint32_t instant = 4 + 4 * (uint32_t)i;
        if (i % 4 == 3)
            put_data(record, instant, (int)i);
        else if (i % 4 == 0)
            put_packet(record, instant, 0, row_word(5, bank, n / 4 % 4, n / 4 % 4 ? 0 : n * 11));
        else if (i % 4 == 1)
            put_packet(record, instant, 1, col_word(5, 0, RDRAM_NOCOP, 0, n % 8 == 1 ? FULL : n));
        else
            put_packet(record, instant, 1, col_word(5, bank, RDRAM_WR + n / 4 % 4, n * 3, FULL));
    }
}

void make_log(size_t records)
{
    make_list(records);
    fill(block_log, sizeof block_log);
    put_log(block_log, list, records);
    fill(list, sizeof list);
}

void remember(void)
{
    KEEP(list);
    KEEP(block_log);
    KEEP(settings);
}

int unchanged(void)
{
    return STAYS(list) && STAYS(block_log) && STAYS(settings);
}

rdram_copied encode(size_t list_len, size_t log_len)
{
    remember();
    return rdram_log_encode(settings, sizeof settings, list, list_len, block_log, log_len);
}

rdram_copied decode(size_t log_len, size_t list_len)
{
    remember();
    return rdram_log_decode(settings, sizeof settings, block_log, log_len, list, list_len);
}

int refused(rdram_copied answer, uint32_t number, uint64_t place)
{
    return answer.number == number && answer.place == place && answer.count == 0 && unchanged();
}

int accepted(rdram_copied answer, uint64_t count)
{
    return answer.number == 0 && answer.place == 0 && answer.count == count;
}
