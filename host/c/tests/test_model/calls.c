/* Records, the buffers that a call is lent, and calls with what must not change. */
#include "test_model.h"

uint8_t model[MODEL + GUARD], store[STORE + GUARD], store_before[sizeof store];
uint8_t record[RECORD + GUARD], answer[DUALOCT + GUARD];
uint8_t wanted[STORE];
static uint8_t model_before[sizeof model], record_before[sizeof record], answer_before[sizeof answer];

void put_data(uint8_t *to, unsigned instant)
{
    for (unsigned i = 0; i < 16; i++)
        to[i] = (uint8_t)(16 * instant + i);
}

void use_record(const char *line)
{
    memset(record, 0, sizeof record);
    if (put_line(record, line))
        put_data(record + 16, (unsigned)get(record, 4));
}

uint8_t *dualoct(uint8_t *of, unsigned bank, unsigned row, unsigned column)
{
    return of + 16 * ((bank * ROWS + row) * COLUMNS + column);
}

void want_bytes(unsigned bank, unsigned row, unsigned column, unsigned mask, const uint8_t *data)
{
    for (int i = 0; i < 16; i++)
        if (mask >> i & 1)
            dualoct(wanted, bank, row, column)[i] = data[i];
}

int store_right(void)
{
    return memcmp(store, wanted, STORE) == 0;
}

void begin(void)
{
    use_set_h();
    memset(model, 0xA5, sizeof model);
    check(rdram_model_fresh(model, MODEL) == 0, "a fresh model");
    for (size_t i = 0; i < sizeof store; i++)
        store[i] = (uint8_t)(7 * i + i / 256);
    memcpy(wanted, store, STORE);
}

void remember(void)
{
    memset(answer, 0xEE, sizeof answer);
    KEEP(model);
    KEEP(store);
    KEEP(record);
    KEEP(settings);
    KEEP(answer);
}

rdram_stepped step(size_t answer_len)
{
    remember();
    return rdram_model_step(settings, sizeof settings, model, MODEL, store, STORE, record, RECORD, answer, answer_len);
}

int is(rdram_stepped got, uint32_t number, uint32_t rule, uint32_t event, uint32_t bytes)
{
    return got.number == number && got.rule == rule && got.event == event && got.bytes == bytes;
}

int refuses(uint32_t number, uint32_t rule, size_t answer_len)
{
    return is(step(answer_len), number, rule, 0, 0) && unchanged();
}

static int same_inputs(void)
{
    return STAYS(record) && STAYS(settings);
}

int unchanged(void)
{
    return STAYS(model) && STAYS(store) && STAYS(answer) && same_inputs();
}

int guards_stay(void)
{
    return memcmp(model + MODEL, model_before + MODEL, GUARD) == 0
        && memcmp(store + STORE, store_before + STORE, GUARD) == 0
        && memcmp(answer + DUALOCT, answer_before + DUALOCT, GUARD) == 0 && same_inputs();
}

int store_stays(void)
{
    return STAYS(store);
}

int answer_stays(void)
{
    return STAYS(answer);
}
