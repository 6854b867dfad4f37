/*
 * Judges a log from disk by the settings that it carries: judge_stamped FILE, a log of blocks of
 * 512 bytes with stamps. Ends with 0 where it passes. Without a file: writes a log of ACT at 4 and
 * RD at 13, and of RD at 12, which is too soon, to a temporary file, and judges each from there;
 * ends with 0 where the first passes and the second is record 1, rule 10.
 *
 * cc -std=c11 -O2 -Ihost/c host/c/examples/judge_stamped.c target/staticlib/librdram.a -o judge_stamped
 */
#include "rdram_util.h"
#include <inttypes.h>
#include <stdio.h>

static uint8_t log_bytes[RDRAM_BLOCK_BYTES * 10000 + 1];

/* Judges the log in a file; no settings are given. */
static rdram_judged judge(FILE *file)
{
    size_t length = fread(log_bytes, 1, sizeof log_bytes, file);
    rdram_judged answer = rdram_stamped_check(log_bytes, length);
    if (answer.number == RDRAM_OK)
        printf("the log passes\n");
    else if (answer.number == RDRAM_REFUSED_RULE)
        printf("record %" PRIu64 " breaks rule %" PRIu32 ": %s\n", answer.place, answer.rule, rdram_rule_text(answer.rule));
    else if (answer.number == RDRAM_REFUSED_LENGTH)
        printf("%s\n", rdram_refusal_text(answer.number));
    else
        printf("%s %" PRIu64 ": %s\n", answer.number == RDRAM_REFUSED_WORD ? "record" : "block", answer.place,
               rdram_refusal_text(answer.number));
    return answer;
}

/* ACT of bank 0, row 0 at 4 and RD of column 1 at an instant, kept in a log on disk under set H. */
static rdram_judged judge_pair(uint32_t at)
{
    static const uint8_t settings[RDRAM_SETTINGS_BYTES] = RDRAM_SET_H;
    uint8_t list[2 * RDRAM_RECORD_BYTES], block[RDRAM_BLOCK_BYTES];
    rdram_judged none = {1, 0, 0};
    if (rdram_packet_put(list, settings, 4, RDRAM_ACT, 0, 0, 0) != RDRAM_OK
        || rdram_packet_put(list + RDRAM_RECORD_BYTES, settings, at, RDRAM_RD, 0, 1, RDRAM_MASK_FULL) != RDRAM_OK)
        return none;
    rdram_copied made = rdram_stamped_encode(settings, sizeof settings, list, sizeof list, block, sizeof block);
    FILE *file = tmpfile();
    if (!file || made.number != RDRAM_OK || fwrite(block, 1, sizeof block, file) != sizeof block)
        return none;
    rewind(file);
    rdram_judged answer = judge(file);
    fclose(file);
    return answer;
}

int main(int count, char **arguments)
{
    if (count == 1) {
        rdram_judged first = judge_pair(13), second = judge_pair(12);
        int right = second.number == RDRAM_REFUSED_RULE && second.rule == 10 && second.place == 1;
        return first.number == RDRAM_OK && right ? 0 : 1;
    }
    FILE *file = count == 2 ? fopen(arguments[1], "rb") : NULL;
    if (!file) {
        fprintf(stderr, "usage: judge_stamped [FILE]\n");
        return 2;
    }
    rdram_judged answer = judge(file);
    fclose(file);
    return answer.number == RDRAM_OK ? 0 : 1;
}
