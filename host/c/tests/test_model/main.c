/*
 * Tests of rdram_model_fresh and rdram_model_step through rdram.h. Prints one
 * line for each failed check and last the line 'N passed, M failed'. Records
 * are written as in the listings of document 01: instant, name, bank, row or
 * column, mask where M = 1; numbers at the end may be left out where they are
 * 0. After a colon stands what becomes of the record: nothing, 'reads', 'wrote'
 * with the number of bytes, 'rule' with its number or 'refused' with its own.
 */
#include "test_model.h"

_Static_assert(sizeof(rdram_stepped) == 16, "layout of rdram_stepped");
_Static_assert(offsetof(rdram_stepped, rule) == 4, "layout of rdram_stepped");
_Static_assert(offsetof(rdram_stepped, event) == 8, "layout of rdram_stepped");
_Static_assert(offsetof(rdram_stepped, bytes) == 12, "layout of rdram_stepped");

int main(void)
{
    test_runs();
    test_closing_runs();
    test_rules();
    test_cores();
    test_places();
    test_masks();
    test_refresh_rows();
    test_fresh();
    test_state();
    test_closing_states();
    test_refused_states();
    test_no_write();
    test_second_write();
    test_closing_flags();
    test_stored_instants();
    test_unused_bytes();
    test_states_by_core();
    test_lengths();
    test_order();
    test_spare_bytes();
    test_null_pointers();
    test_whole_runs();
    return report();
}
