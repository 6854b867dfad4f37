/*
 * Codes a word both ways, then packs 31 records into a log of 3 blocks and
 * reads them back.
 *
 * cc -std=c11 -O2 -Ihost/c host/c/examples/pack_log.c target/staticlib/librdram.a -o pack_log
 */
#include "rdram_util.h"
#include <inttypes.h>
#include <stdio.h>
#include <string.h>

enum { RECORDS = 31, BLOCKS = 3 };

/* RD of bank 0, column 1 at 13, 17, 21 .. */
static void make_list(uint8_t *list, uint64_t word)
{
    rdram_record read = {13, RDRAM_KIND_COL, word, {0}};
    for (int i = 0; i < RECORDS; i++, read.instant += 4)
        rdram_record_put(list + i * RDRAM_RECORD_BYTES, &read);
}

int main(void)
{
    static const rdram_figures figures = {.tRC = 28, .tRAS = 20, .tRP = 8, .tPP = 8, .tRR = 8, .tRCD = 9, .tRTR = 8, .tRDP = 4,
                                          .tRTP = 4, .tCC = 4, .tCAC = 8, .tCWD = 6, .tOFFP = 4, .rows = 512, .columns = 128};
    static uint8_t list[RECORDS * RDRAM_RECORD_BYTES], log[BLOCKS * RDRAM_BLOCK_BYTES], back[sizeof list];
    uint8_t settings[RDRAM_SETTINGS_BYTES];
    rdram_settings_put(settings, &figures);

    rdram_word w = rdram_word_encode(settings, sizeof settings, RDRAM_RD, 0, 1, RDRAM_MASK_FULL);
    printf("RD of bank 0, column 1: %s, word %010" PRIX64 "\n", rdram_refusal_text(w.number), w.word);
    rdram_packet p = rdram_word_decode(settings, sizeof settings, RDRAM_KIND_COL, w.word);
    printf("decoded: %s, %s of bank %" PRIu32 ", column %" PRIu32 ", mask %04" PRIX32 "\n", rdram_refusal_text(p.number),
           rdram_command_name(p.command), p.bank, p.place, p.mask);

    make_list(list, w.word);
    rdram_copied in = rdram_log_encode(settings, sizeof settings, list, sizeof list, log, sizeof log);
    printf("packed: %s, %" PRIu64 " blocks\n", rdram_refusal_text(in.number), in.count);
    rdram_copied out = rdram_log_decode(settings, sizeof settings, log, sizeof log, back, sizeof back);
    int same = out.number == RDRAM_OK && memcmp(list, back, sizeof list) == 0;
    printf("unpacked: %s, %" PRIu64 " records, %s\n", rdram_refusal_text(out.number), out.count, same ? "unchanged" : "CHANGED");

    log[RDRAM_BLOCK_BYTES + 100] ^= 1; /* damage in block 1 */
    out = rdram_log_decode(settings, sizeof settings, log, sizeof log, back, sizeof back);
    printf("damaged: refusal %" PRIu32 " at %" PRIu64 ": %s\n", out.number, out.place, rdram_refusal_text(out.number));
    return same ? 0 : 1;
}
