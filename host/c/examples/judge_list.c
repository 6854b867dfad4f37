/*
 * Says in words whether a list of records keeps the seventeen rules under set H:
 * judge_list FILE, of records of 32 bytes. Ends with 0 where it does. Without a
 * file: ACT at 4 with RD at 13, and with RD at 12, which is too soon; ends with
 * 0 where the first passes and the second is record 1, rule 10.
 *
 * cc -std=c11 -O2 -Ihost/c host/c/examples/judge_list.c target/staticlib/librdram.a -o judge_list
 */
#include "rdram_util.h"
#include <inttypes.h>
#include <stdio.h>

static const uint8_t SET_H[RDRAM_SETTINGS_BYTES] = RDRAM_SET_H;

static rdram_judged judge(const uint8_t *list, size_t length)
{
    rdram_judged answer = rdram_check(SET_H, sizeof SET_H, list, length);
    if (answer.number == RDRAM_OK)
        printf("the list passes\n");
    else if (answer.number == RDRAM_REFUSED_RULE)
        printf("record %" PRIu64 " breaks rule %" PRIu32 ": %s\n", answer.place, answer.rule, rdram_rule_text(answer.rule));
    else if (answer.number == RDRAM_REFUSED_WORD)
        printf("record %" PRIu64 ": %s\n", answer.place, rdram_refusal_text(answer.number));
    else
        printf("%s\n", rdram_refusal_text(answer.number));
    return answer;
}

/* ACT of bank 0, row 0 at 4 and RD of column 1 at 13, then at 12. */
static int judge_two(void)
{
    uint8_t list[2 * RDRAM_RECORD_BYTES];
    if (rdram_packet_put(list, SET_H, 4, RDRAM_ACT, 0, 0, 0) != RDRAM_OK
        || rdram_packet_put(list + RDRAM_RECORD_BYTES, SET_H, 13, RDRAM_RD, 0, 1, RDRAM_MASK_FULL) != RDRAM_OK)
        return 1;
    rdram_judged first = judge(list, sizeof list);
    rdram_put(list + RDRAM_RECORD_BYTES, 12, 4);
    rdram_judged second = judge(list, sizeof list);
    int right = second.number == RDRAM_REFUSED_RULE && second.rule == 10 && second.place == 1;
    return first.number == RDRAM_OK && right ? 0 : 1;
}

int main(int count, char **arguments)
{
    static uint8_t list[RDRAM_RECORD_BYTES * 100000 + 1];
    if (count == 1)
        return judge_two();
    FILE *file = count == 2 ? fopen(arguments[1], "rb") : NULL;
    size_t length = file ? fread(list, 1, sizeof list, file) : 0;
    if (!file || ferror(file) || length == sizeof list) {
        fprintf(stderr, "usage: judge_list [FILE], a file of at most 100,000 records of 32 bytes\n");
        return 2;
    }
    fclose(file);
    return judge(list, length).number != RDRAM_OK;
}
