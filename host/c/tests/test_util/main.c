/*
 * Tests of rdram_util.h against the calls of rdram.h. Prints one line for each failed check and last the
 * line 'N passed, M failed'. Runs from the root of the repository, where the bench runs are.
 */
#include "test_util.h"

uint8_t planner[RDRAM_PLANNER_BYTES], request[RDRAM_REQUEST_BYTES], room[ROOM];

void begin(void)
{
    use_set_h();
    check(rdram_planner_fresh(planner, sizeof planner) == 0, "a fresh planner");
}

rdram_planned plan(void)
{
    return rdram_plan(settings, sizeof settings, planner, sizeof planner, request, sizeof request, room, sizeof room);
}

static void test_numbers(void)
{
    uint8_t ours[9], theirs[9];
    for (int bytes = 1; bytes <= 8; bytes++) {
        uint64_t number = 0xF1E2D3C4B5A69788u >> (64 - 8 * bytes);
        memset(ours, 0xA5, sizeof ours);
        memset(theirs, 0xA5, sizeof theirs);
        rdram_put(ours, number, bytes);
        put(theirs, number, bytes);
        check(memcmp(ours, theirs, sizeof ours) == 0 && rdram_get(ours, bytes) == number, "a number of %d bytes", bytes);
    }
}

/* ---- Settings ---- */

static int coded(const rdram_figures *figures)
{
    uint8_t bytes[RDRAM_SETTINGS_BYTES];
    rdram_settings_put(bytes, figures);
    return rdram_word_encode(bytes, sizeof bytes, RDRAM_NOCOP, 0, 0, FULL).number == RDRAM_OK;
}

/* Each figure by its name: the library accepts its bounds, and refuses one more and one less. */
static void test_figure(const char *name, size_t offset, unsigned low, unsigned high)
{
    for (unsigned k = 0; k < 4; k++) {
        rdram_figures figures = RDRAM_FIGURES_H;
        uint16_t number = (uint16_t)(k == 0 ? low - 1 : k == 1 ? low : k == 2 ? high : high + 1);
        memcpy((char *)&figures + offset, &number, sizeof number);
        if (offset == offsetof(rdram_figures, tCAC))
            figures.tCWD = 1;
        check(coded(&figures) == (k == 1 || k == 2), "%s %u", name, number);
    }
}

#define FIGURE(name, low, high) test_figure(#name, offsetof(rdram_figures, name), low, high)

static void test_settings(void)
{
    static const uint8_t set_h[RDRAM_SETTINGS_BYTES] = RDRAM_SET_H;
    static const uint16_t numbers[16] = {101, 202, 303, 404, 505, 606, 707, 808, 909, 1010, 1111, 1212, 1313, 1414, 1515, 17 + 256 * 23};
    rdram_figures figures = RDRAM_FIGURES_H;
    uint8_t bytes[RDRAM_SETTINGS_BYTES];
    rdram_settings_put(bytes, &figures);
    check(memcmp(bytes, set_h, sizeof bytes) == 0, "set H by its figures");
    use_figures(numbers);
    figures = rdram_settings_get(settings);
    check(figures.tRC == 101 && figures.tRAS == 202 && figures.tRP == 303 && figures.tPP == 404 && figures.tRR == 505
              && figures.tRCD == 606 && figures.tRTR == 707 && figures.tRDP == 808 && figures.tRTP == 909 && figures.tCC == 1010
              && figures.tCAC == 1111 && figures.tCWD == 1212 && figures.tOFFP == 1313 && figures.rows == 1414
              && figures.columns == 1515 && figures.device == 17 && figures.core == 23, "the figures of settings");
    rdram_settings_put(bytes, &figures);
    check(memcmp(bytes, settings, sizeof bytes) == 0, "settings to figures and back");
    FIGURE(tRC, 4, 64), FIGURE(tRAS, 4, 64), FIGURE(tRP, 4, 64), FIGURE(tPP, 4, 64), FIGURE(tRR, 4, 64), FIGURE(tRCD, 4, 64);
    FIGURE(tRTR, 4, 64), FIGURE(tRDP, 4, 64), FIGURE(tRTP, 4, 64), FIGURE(tCC, 4, 16), FIGURE(tCAC, 7, 12), FIGURE(tCWD, 1, 7);
    FIGURE(tOFFP, 4, 32), FIGURE(rows, 1, 512), FIGURE(columns, 1, 128);
    for (unsigned device = 30; device < 34; device++)
        for (unsigned core = 0; core < 5; core++) {
            rdram_figures other = RDRAM_FIGURES_H;
            other.device = (uint8_t)device;
            other.core = (uint8_t)core;
            check(coded(&other) == (device < 32 && core < 3), "device %u, core form %u", device, core);
        }
}

/* ---- Requests ---- */

static const uint8_t DATA[RDRAM_DUALOCT_BYTES] = {1, 2, 3, 4, 5, 6, 7, 8, 9, 10, 11, 12, 13, 14, 15, 16};

/* Each helper writes these bytes, and the library accepts them. */
static void is_request(const char *name, const uint8_t *bytes)
{
    check(memcmp(request, bytes, sizeof request) == 0, "bytes of %s", name);
    check(plan().number == RDRAM_OK, "%s is accepted", name);
}

static void test_requests(void)
{
    uint8_t bytes[RDRAM_REQUEST_BYTES] = {RDRAM_REQUEST_READ, 31, 1, 0, 3};
    begin();
    fill(request, sizeof request);
    rdram_request_read(request, 31, 1, 3);
    is_request("read", bytes);
    bytes[0] = RDRAM_REQUEST_READ_CLOSE;
    rdram_request_read_close(request, 31, 1, 3);
    is_request("read and close", bytes);
    bytes[0] = RDRAM_REQUEST_WRITE;
    put(bytes + 6, 0x8421, 2);
    memcpy(bytes + 8, DATA, sizeof DATA);
    rdram_request_write(request, 31, 1, 3, 0x8421, DATA);
    is_request("write", bytes);
    bytes[0] = RDRAM_REQUEST_WRITE_CLOSE;
    rdram_request_write_close(request, 31, 1, 3, 0x8421, DATA);
    is_request("write and close", bytes);
    memset(bytes, 0, sizeof bytes);
    bytes[0] = RDRAM_REQUEST_REFRESH;
    rdram_request_refresh(request);
    is_request("refresh", bytes);
    bytes[0] = RDRAM_REQUEST_FLUSH;
    rdram_request_flush(request);
    is_request("flush", bytes);
    bytes[0] = RDRAM_REQUEST_CLOSE;
    rdram_request_close(request);
    is_request("close", bytes);
    bytes[0] = RDRAM_REQUEST_WAIT;
    put(bytes + 8, 123456789, 4);
    rdram_request_wait(request, 123456789);
    is_request("wait", bytes);
}

/* Numbers out of range are refused as such, also where their field has no room for them. */
static void test_wide_numbers(void)
{
    static const uint32_t WIDE[] = {255, 256, 65535, 65536, 0x10000000, 0xFFFFFFFF};
    begin();
    for (size_t i = 0; i < COUNT(WIDE); i++) {
        rdram_request_read(request, WIDE[i], 0, 0);
        check(plan().number == RDRAM_REFUSED_BANK, "bank %" PRIu32, WIDE[i]);
        rdram_request_read(request, 0, WIDE[i], 0);
        check(plan().number == RDRAM_REFUSED_ROW, "row %" PRIu32, WIDE[i]);
        rdram_request_read(request, 0, 0, WIDE[i]);
        check(plan().number == RDRAM_REFUSED_COLUMN, "column %" PRIu32, WIDE[i]);
        rdram_request_put(request, WIDE[i], 0, 0, 0);
        check(plan().number == RDRAM_REFUSED_KIND, "kind %" PRIu32, WIDE[i]);
    }
}

/* ---- Planners ---- */

/* Now is that of the last packet, and a wait adds to it; the refresh bank goes round. */
static void test_planner(void)
{
    begin();
    check(rdram_planner_now(planner) == 4 && rdram_planner_refresh_bank(planner) == 0, "now and refresh bank of a fresh planner");
    for (uint32_t i = 0; i < 40; i++) {
        rdram_request_refresh(request);
        rdram_planned made = plan();
        uint32_t last = rdram_record_get(room + (made.records - 1) * RECORD).instant;
        check(made.number == 0 && rdram_planner_now(planner) == last, "now after refresh %" PRIu32, i);
        check(rdram_planner_refresh_bank(planner) == (i + 1) % 32, "bank after refresh %" PRIu32, i);
        rdram_request_wait(request, 100 * i);
        check(plan().number == 0 && rdram_planner_now(planner) == last + 100 * i, "now after a wait of %" PRIu32, 100 * i);
    }
    rdram_request_wait(request, LAST - rdram_planner_now(planner));
    check(plan().number == 0 && rdram_planner_now(planner) == LAST, "the last instant as now");
}

/* ---- Logs ---- */

/* The library needs so many blocks and not one less. */
static void test_blocks(void)
{
    static uint8_t list[100 * RECORD], blocks[8 * BLOCK];
    use_set_h();
    for (size_t n = 0; n < COUNT(list) / RECORD; n++) {
        size_t plain = (size_t)rdram_blocks(n), stamped = (size_t)rdram_stamped_blocks(n);
        check(rdram_packet_put(list + n * RECORD, settings, 4, RDRAM_ACT, 0, 0, 0) == 0, "ACT");
        rdram_copied a = rdram_log_encode(settings, sizeof settings, list, n * RECORD, blocks, plain * BLOCK);
        rdram_copied b = rdram_stamped_encode(settings, sizeof settings, list, n * RECORD, blocks, stamped * BLOCK);
        check(a.number == 0 && a.count == plain && b.number == 0 && b.count == stamped, "blocks of %zu records", n);
        if (n == 0)
            continue;
        a = rdram_log_encode(settings, sizeof settings, list, n * RECORD, blocks, (plain - 1) * BLOCK);
        b = rdram_stamped_encode(settings, sizeof settings, list, n * RECORD, blocks, (stamped - 1) * BLOCK);
        check(a.number == RDRAM_REFUSED_FULL && b.number == RDRAM_REFUSED_FULL, "a block less for %zu records", n);
    }
    check(rdram_blocks(UINT64_MAX) == UINT64_MAX / 15 && rdram_stamped_blocks(UINT64_MAX) == UINT64_MAX / 14 + 1,
          "blocks of the most records that a number can say");
}

int main(void)
{
    test_numbers();
    test_settings();
    test_requests();
    test_wide_numbers();
    test_planner();
    test_blocks();
    test_texts();
    test_lines();
    test_runs();
    return report();
}
