/* What the files of this test share. */
#ifndef TEST_UTIL_H
#define TEST_UTIL_H

#include "common.h"
#include "rdram_util.h"

#define ROOM (RDRAM_REQUEST_RECORDS * RECORD)

extern uint8_t planner[RDRAM_PLANNER_BYTES], request[RDRAM_REQUEST_BYTES], room[ROOM];

/* A fresh planner under set H. */
void begin(void);

/* Plans the request into the room. */
rdram_planned plan(void);

void test_texts(void);
void test_lines(void);
void test_runs(void);

#endif
