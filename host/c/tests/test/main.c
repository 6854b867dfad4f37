/*
 * Tests of words and logs through rdram.h. Prints one line for each failed
 * check and last the line 'N passed, M failed'. Expected words and blocks come
 * from the small coder of common.c, written from document 01, and from literals.
 */
#include "test.h"

_Static_assert(sizeof(rdram_word) == 16, "layout of rdram_word");
_Static_assert(sizeof(rdram_packet) == 20, "layout of rdram_packet");
_Static_assert(sizeof(rdram_copied) == 24, "layout of rdram_copied");

int main(void)
{
    test_worked_words();
    test_all_words();
    test_word_refusals();
    test_packet_refusals();
    test_settings();
    test_null();
    test_round_trip();
    test_31_records();
    test_room();
    test_lengths();
    test_flipped_bytes();
    test_block_fields();
    test_empty_blocks();
    test_block_order();
    test_bad_records();
    test_any_instant();
    test_order();
    test_other_settings();
    test_constants();
    return report();
}
