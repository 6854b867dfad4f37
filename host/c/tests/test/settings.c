/* Settings: each number at and beyond its bounds, tCWD against tCAC, core forms and lengths, by all four calls. */
#include "test.h"

/* In the order of SET_H, the device without the core form. */
static const uint16_t LOW[16] = {4, 4, 4, 4, 4, 4, 4, 4, 4, 4, 7, 1, 4, 1, 1, 0};
static const uint16_t HIGH[16] = {64, 64, 64, 64, 64, 64, 64, 64, 64, 16, 12, 11, 32, 512, 128, 31};

/* Whether all four calls refuse the settings; otherwise whether none does. */
static int all_refuse(const uint8_t *bytes, size_t length, int refuse)
{
    static const uint8_t none[1];
    uint32_t number = refuse ? RDRAM_REFUSED_SETTINGS : RDRAM_OK;
    rdram_word w = rdram_word_encode(bytes, length, RDRAM_ACT, 0, 0, 0);
    rdram_packet p = rdram_word_decode(bytes, length, RDRAM_KIND_ROW, w.word);
    rdram_copied e = rdram_log_encode(bytes, length, none, 0, NULL, 0);
    rdram_copied d = rdram_log_decode(bytes, length, none, 0, NULL, 0);
    int quiet = (!refuse || w.word == 0) && p.command == 0 && p.bank == 0 && p.place == 0 && p.mask == 0;
    return w.number == number && p.number == number && e.number == number && d.number == number && quiet
        && e.place == 0 && e.count == 0 && d.place == 0 && d.count == 0;
}

static void test_figure(int at)
{
    uint16_t figures[16];
    memcpy(figures, SET_H, sizeof figures);
    if (at == 11)
        figures[10] = 12; /* tCWD reaches 11 */
    if (at == 10)
        figures[11] = 6; /* below the least tCAC */
    const int values[5] = {LOW[at] - 1, LOW[at], HIGH[at], HIGH[at] + 1, HIGH[at] + 256};
    for (int i = 0; i < (at == 15 ? 4 : 5); i++) {
        int beyond = values[i] < LOW[at] || values[i] > HIGH[at];
        figures[at] = (uint16_t)values[i];
        use_figures(figures);
        check(all_refuse(settings, sizeof settings, beyond), "settings number %d with value %d", at, values[i]);
    }
}

/* The high byte of the last number: a form above 2 is refused. */
static void test_core_forms(void)
{
    for (unsigned core = 0; core < 256; core++)
        for (unsigned device = 0; device < 33; device++) {
            use(2, 4, device);
            use_core(core);
            int beyond = core > RDRAM_CORE_INDEPENDENT || device > 31;
            /* the word of ACT is of the device, and of no form */
            check(all_refuse(settings, sizeof settings, beyond), "device %u with core form %u", device, core);
        }
}

void test_settings(void)
{
    static const uint8_t set_h[RDRAM_SETTINGS_BYTES] = RDRAM_SET_H;
    static uint8_t longer[64];
    use_set_h();
    check(memcmp(set_h, settings, sizeof set_h) == 0, "set H of the header");
    for (int at = 0; at < 16; at++)
        test_figure(at);
    test_core_forms();
    for (unsigned cac = 7; cac <= 12; cac++) {
        use(2, 4, 0);
        use_figure(10, cac);
        use_figure(11, cac - 1);
        check(all_refuse(settings, sizeof settings, 0), "tCAC %u with tCWD one below", cac);
        use_figure(11, cac);
        check(all_refuse(settings, sizeof settings, 1), "tCAC %u with tCWD the same", cac);
    }
    use(2, 4, 0);
    memcpy(longer, settings, sizeof settings);
    int ok = 1;
    for (size_t length = 0; length <= sizeof longer; length++)
        ok &= all_refuse(longer, length, length != RDRAM_SETTINGS_BYTES);
    check(ok, "settings of every length from 0 to 64");
    check(all_refuse(NULL, 0, 1), "null settings");
}
