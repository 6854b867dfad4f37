/*
 * Tests of rdram_check, rdram_check_log and rdram_shortest through rdram.h. Prints one line for
 * each failed check and last the line 'N passed, M failed'. Lists are written
 * as in the listings of document 01: instant, name, bank, row or column, mask
 * where M = 1; numbers at the end may be left out where they are 0.
 */
#include "test_check.h"

_Static_assert(sizeof(rdram_judged) == 16, "layout of rdram_judged");
_Static_assert(offsetof(rdram_judged, place) == 8, "layout of rdram_judged");

int main(void)
{
    test_runs();
    test_passing_lists();
    test_single_rules();
    test_several_rules();
    test_empty();
    test_lengths();
    test_settings();
    test_timings();
    test_cores();
    test_word_before_rule();
    test_31_records();
    test_shortest_lists();
    test_shortest_by_all_starts();
    return report();
}
