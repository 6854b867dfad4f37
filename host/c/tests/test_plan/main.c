/*
 * Tests of rdram_planner_fresh, rdram_plan and rdram_plan_all through rdram.h. Prints one line
 * for each failed check and last the line 'N passed, M failed'. Requests are
 * written as kind, bank, row, column and mask, or a wait's cycles, where reada
 * and writea are read and close, write and close; lists as in the listings of
 * document 01: instant, name, bank, row or column, mask where M = 1. Numbers at
 * the end may be left out where they are 0.
 */
#include "test_plan.h"

_Static_assert(sizeof(rdram_planned) == 16, "layout of rdram_planned");
_Static_assert(offsetof(rdram_planned, banks) == 4, "layout of rdram_planned");
_Static_assert(offsetof(rdram_planned, records) == 8, "layout of rdram_planned");
_Static_assert(sizeof(rdram_planned_all) == 24, "layout of rdram_planned_all");
_Static_assert(offsetof(rdram_planned_all, place) == 8, "layout of rdram_planned_all");
_Static_assert(offsetof(rdram_planned_all, records) == 16, "layout of rdram_planned_all");

int main(void)
{
    test_runs();
    test_closing_runs();
    test_timings();
    test_refresh_banks();
    test_fresh();
    test_state();
    test_closing_states();
    test_refused_states();
    test_no_write();
    test_second_write();
    test_stored_instants();
    test_unused_bytes();
    test_states_by_core();
    test_requests();
    test_spare_bytes();
    test_lengths();
    test_settings();
    test_null_pointers();
    test_unretired();
    test_horizon();
    test_cores();
    test_most_records();
    test_banks();
    test_many();
    test_many_stops();
    test_many_again();
    test_many_refused();
    test_many_late();
    return report();
}
