/* The tests of planners: requests, the buffers that a call is lent, and runs of calls. */
#ifndef TEST_PLAN_H
#define TEST_PLAN_H

#include "common.h"

#define PLANNER RDRAM_PLANNER_BYTES
#define REQUEST RDRAM_REQUEST_BYTES
#define ROOM (RDRAM_REQUEST_RECORDS * RECORD)
#define MOST 110 /* records in the longest list */

/* Buffers are longer than what is lent of them, to see that the rest stays. */
extern uint8_t planner[PLANNER + 64], planner_before[PLANNER + 64];
extern uint8_t request[2 * REQUEST], room[ROOM + 64];

/* The records of the accepted calls since `begin`. */
extern uint8_t list[MOST * RECORD];
extern size_t records;

/* How many banks the last accepted call looked at. */
extern uint32_t banks;

/* Data of the n-th write. */
void put_data(uint8_t *to, unsigned n);

void use_request(const char *text);

/* Copies the buffers. The calls below do so first. */
void remember(void);

/* Refused with this number, and no buffer changed. */
int refuses(uint32_t number, size_t planner_len, size_t request_len, size_t room_len);

/* Accepted; the records are appended to the list, and the room after them is unchanged. */
int accepts(size_t room_len);

/* Set H and a fresh planner, which is checked. */
void begin(void);

/* Plans requests, separated by commas; plan_all does so after `begin`. */
int plan_more(const char *text);
int plan_all(const char *text);

/* The list passes rdram_check. */
int list_passes(void);

/* runs.c */
void test_runs(void);
void test_closing_runs(void);
void test_timings(void);
void test_refresh_banks(void);
void test_cores(void);
void test_most_records(void);
void test_banks(void);

/* states.c */
void test_fresh(void);
void test_state(void);
void test_closing_states(void);
void test_refused_states(void);
void test_no_write(void);
void test_second_write(void);
void test_stored_instants(void);
void test_unused_bytes(void);
void test_states_by_core(void);

/* refusals.c */
void test_requests(void);
void test_spare_bytes(void);
void test_lengths(void);
void test_settings(void);
void test_null_pointers(void);
void test_unretired(void);
void test_horizon(void);

/* many.c */
void test_many(void);
void test_many_stops(void);
void test_many_again(void);
void test_many_refused(void);
void test_many_late(void);

#endif
