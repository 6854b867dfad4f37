/*
 * The public constants against what the calls do: each length is the one that is accepted, and one more and one less are refused.
 */
#include "test.h"

static uint8_t planner[RDRAM_PLANNER_BYTES + 1], model[RDRAM_MODEL_BYTES + 1];
static uint8_t lists[(RDRAM_BLOCK_RECORDS + 1) * RDRAM_RECORD_BYTES], blocks[2 * RDRAM_BLOCK_BYTES];
static uint8_t made[64 * RDRAM_RECORD_BYTES];
static const uint8_t set_h[RDRAM_SETTINGS_BYTES] = RDRAM_SET_H;

static void test_lengths_of_states(void)
{
    for (int k = -1; k <= 1; k++) {
        check(rdram_planner_fresh(planner, (size_t)(RDRAM_PLANNER_BYTES + k)) == (k ? 1u : 0u), "planner of %d bytes", RDRAM_PLANNER_BYTES + k);
        check(rdram_model_fresh(model, (size_t)(RDRAM_MODEL_BYTES + k)) == (k ? 1u : 0u), "model of %d bytes", RDRAM_MODEL_BYTES + k);
    }
    check(sizeof(rdram_meter) == RDRAM_METER_BYTES, "bytes of a meter");
    check(sizeof((rdram_meter *)0)->marks * 8 == RDRAM_METER_CYCLES, "cycles of a meter");
}

/* A block takes so many records and not one more; lengths that are not whole records or blocks are refused. */
static void test_lengths_of_logs(void)
{
    for (size_t i = 0; i <= RDRAM_BLOCK_RECORDS; i++)
        put_packet(lists + i * RDRAM_RECORD_BYTES, 4 + 4 * (unsigned)i, 0, 0x401000);
    for (size_t n = RDRAM_BLOCK_RECORDS; n <= RDRAM_BLOCK_RECORDS + 1; n++) {
        rdram_copied a = rdram_log_encode(set_h, sizeof set_h, lists, n * RDRAM_RECORD_BYTES, blocks, sizeof blocks);
        check(a.number == 0 && a.count == (n > RDRAM_BLOCK_RECORDS ? 2u : 1u), "blocks of %zu records", n);
    }
    check(rdram_log_encode(set_h, sizeof set_h, lists, RDRAM_RECORD_BYTES - 1, blocks, sizeof blocks).number == 13, "a list of a record less a byte");
    check(rdram_log_encode(set_h, sizeof set_h, lists, RDRAM_RECORD_BYTES, blocks, RDRAM_BLOCK_BYTES).number == 0, "a log of one block");
    check(rdram_log_encode(set_h, sizeof set_h, lists, RDRAM_RECORD_BYTES, blocks, RDRAM_BLOCK_BYTES - 1).number == 8, "a log of a block less a byte");
    check(rdram_check_log(set_h, sizeof set_h, blocks, RDRAM_BLOCK_BYTES - 1).number == 13, "a block less a byte");
    check(rdram_word_encode(set_h, RDRAM_SETTINGS_BYTES - 1, RDRAM_ACT, 0, 0, 0).number == 1, "settings less a byte");
}

/* The most records: a close with every bank open, where no bank has a neighbour. */
static void test_most_records(void)
{
    uint8_t form[RDRAM_SETTINGS_BYTES] = RDRAM_SET_H, request[RDRAM_REQUEST_BYTES + 1] = {RDRAM_REQUEST_READ};
    form[RDRAM_SETTINGS_CORE] = RDRAM_CORE_INDEPENDENT;
    check(rdram_planner_fresh(planner, RDRAM_PLANNER_BYTES) == 0, "fresh");
    for (unsigned bank = 0; bank < 32; bank++) {
        request[1] = (uint8_t)bank;
        rdram_planned a = rdram_plan(form, sizeof form, planner, RDRAM_PLANNER_BYTES, request, RDRAM_REQUEST_BYTES, made, sizeof made);
        check(a.number == 0, "a read of bank %u", bank);
    }
    memset(request, 0, sizeof request);
    request[0] = RDRAM_REQUEST_CLOSE;
    check(rdram_plan(form, sizeof form, planner, RDRAM_PLANNER_BYTES, request, RDRAM_REQUEST_BYTES + 1, made, sizeof made).number == 13, "a longer request");
    check(rdram_plan(form, sizeof form, planner, RDRAM_PLANNER_BYTES, request, RDRAM_REQUEST_BYTES, made, (RDRAM_REQUEST_RECORDS - 1) * RDRAM_RECORD_BYTES).number == 8,
          "room for a record less");
    rdram_planned a = rdram_plan(form, sizeof form, planner, RDRAM_PLANNER_BYTES, request, RDRAM_REQUEST_BYTES, made, RDRAM_REQUEST_RECORDS * RDRAM_RECORD_BYTES);
    check(a.number == 0 && a.records == RDRAM_REQUEST_RECORDS, "the most records of a request: %u", (unsigned)a.records);
}

static void test_one_mask_and_version(void)
{
    rdram_word a = rdram_word_encode(set_h, sizeof set_h, RDRAM_NOCOP, 0, 0, RDRAM_MASK_FULL);
    check(a.number == 0 && rdram_word_decode(set_h, sizeof set_h, RDRAM_KIND_COL, a.word).mask == RDRAM_MASK_FULL, "the full mask");
    check(rdram_word_encode(set_h, sizeof set_h, RDRAM_NOCOP, 0, 0, RDRAM_MASK_FULL + 1).number == 10, "a mask above the full one");
    char text[16];
    snprintf(text, sizeof text, "%d.%d.%d", RDRAM_VERSION_MAJOR, RDRAM_VERSION_MINOR, RDRAM_VERSION_PATCH);
    check(!strcmp(text, RDRAM_VERSION_TEXT), "the text of the version");
    check(rdram_version() == RDRAM_VERSION, "archive of version %u, header of %u", (unsigned)rdram_version(), (unsigned)RDRAM_VERSION);
}

void test_constants(void)
{
    test_lengths_of_states();
    test_lengths_of_logs();
    test_most_records();
    test_one_mask_and_version();
}
