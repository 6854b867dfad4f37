/*
 * rdram.h: Direct RDRAM packet words, block logs and their index (rdram_index.h), logs that carry
 * their settings (rdram_stamped.h), timing rules and the shortest run that breaks one
 * (rdram_shortest.h), plans of one request and of many (rdram_plan_all.h), a device model
 * (rdram_model.h), a meter of the data pins (rdram_meter.h), pages of the channel as text
 * (rdram_page.h), all under settings (rdram_settings.h).
 * Link with librdram.a. Helpers are in rdram_util.h, which is not included here.
 *
 * Time:
 * - A cycle is one of the channel's clock (tCYCLE, 2.5 ns at 400 MHz). Timings are whole cycles.
 * - Instants are cycles counted from 0, and run from 4 to 1,000,000,000. A packet lasts four cycles and
 *   its instant is its trailing edge: at t it takes the cycles t - 4 to t - 1. A dualoct of data, 16
 *   bytes, lasts four too, but its instant is its leading edge: at t it takes t to t + 3. Data of a read
 *   come at its packet's instant + tCAC, data of a write go at its packet's instant + tCWD.
 * - Refresh is the caller's to keep: the library sends none but for a refresh request, which is for one
 *   row of one bank, the banks in turn. All rows are due within tREF, so on average one request every
 *   tREF / (32 * rows): with 32 ms, 512 rows and 2.5 ns every 781 cycles. Nor does it keep a longest
 *   time: a data sheet has one for tRAS (64 us), by which an open row has to be closed.
 *
 * Common to all calls:
 * - A buffer is a pointer and its length in bytes. A null pointer is allowed with length 0. No
 *   alignment is needed. Numbers in buffers have their low byte first.
 * - The buffers of one call must not overlap. With RDRAM_DEBUG defined each call asserts that, and gcc
 *   warns of some of it (rdram_attributes.h).
 * - An answer with number 0 (RDRAM_OK) is accepted. Any other number is a refusal (enum
 *   rdram_refusal): every other field of the answer is then 0, except `place`, counted from 0,
 *   `rule` and `start` where the call names them, and no buffer is changed. rdram_plan_all alone
 *   can stop on its way, with what it has planned.
 * - The library keeps no state and allocates nothing: planners, models and meters are the caller's.
 *   Calls may run at the same time, in threads and in interrupts, where none of them writes a buffer
 *   that another one is lent.
 * - Stack, without that of memcpy and memset, at most so many bytes (docs/PERFORMANCE.md: by processor):
 *     7000  rdram_check, rdram_check_log, rdram_index_check, rdram_page, rdram_shortest,
 *           rdram_stamped_check
 *     5500  rdram_plan, rdram_plan_all
 *     1700  rdram_model_step
 *     1500  every other call
 * - A state (planner, model or meter) is of one version of the library. A version that changes its form
 *   changes its length too: an old planner or model is then refused under 1, and the bytes of an old
 *   meter do not fit the struct.
 */
#ifndef RDRAM_H
#define RDRAM_H

#include "rdram_answers.h"
#include "rdram_attributes.h"
#include "rdram_index.h"
#include "rdram_meter.h"
#include "rdram_model.h"
#include "rdram_page.h"
#include "rdram_plan_all.h"
#include "rdram_settings.h"
#include "rdram_shortest.h"
#include "rdram_stamped.h"
#include "rdram_version.h"
#include <stddef.h>
#include <stdint.h>

#ifdef __cplusplus
extern "C" {
#endif

/*
 * Record, 32 bytes: instant 4, kind 1 (enum rdram_kind), zero 3, word 8, data 16. A D record has
 * word 0, a ROW or COL record has data 0. A record has no coding (refusal 10) where it is not of
 * this form, or its word has no packet under the settings.
 */
#define RDRAM_RECORD_BYTES 32

/*
 * Block, 512 bytes: 15 records, block number 4 (from 0), records used 4 (1 to 15), zeros 20, check
 * 4. Unused records are zero, only the last block may be short, and the 128 32-bit words of a block
 * sum to 0 modulo 2^32. A block that is not so (refusal 12) is damaged, or blocks are missing or
 * out of order.
 */
#define RDRAM_BLOCK_BYTES 512
#define RDRAM_BLOCK_RECORDS 15

/*
 * Request, 24 bytes: kind 1 (enum rdram_request), bank 1, row 2, column 1, zero 1, mask 2, data 16.
 * Mask bit i governs data byte i. A read, with close or without, uses bank, row and column, a write
 * all of them; a wait has its cycles in bytes 8 to 11, any 32-bit number. Every byte that the kind
 * does not use is 0.
 */
#define RDRAM_REQUEST_BYTES 24

/*
 * The most records that one request makes under any core form: room for so many is enough. Where banks
 * have neighbours it is 16.
 */
#define RDRAM_REQUEST_RECORDS 32

/*
 * Planner, 768 bytes: the state of a planner between two requests. A program need not look inside;
 * it may keep a copy and go on from that.
 *    0  32 x 4  instant of each bank's last ACT or REFA
 *  128  32 x 4  of its last ACT
 *  256  32 x 4  of the last PRER, implied ones too, or REFP to it or that closed it
 *  384  32 x 4  of its last RD or RDA
 *  512  32 x 4  of the last retire to it
 *  640  32 x 2  each bank: 0 closed, 1 + row open
 *  704  6 x 4   instants of the last packet, ROW packet, COL packet, PRER (implied ones too) or
 *               REFP, RD or RDA, and implied PRER
 *  728  1       how many writes wait, 0 to 2
 *  736  8       the older: bank 1, column 1, whether its retire closes the bank (WRA) 2, instant of
 *               its WR or WRA 4; 0 where none waits
 *  744  8       the newer of two likewise, 0 where no second waits
 *  752  4       now
 *  756  2       bank of the next refresh, 0 to 31
 *  760  2       mask of the older waiting write, and where none waits as at 762
 *  762  2       mask of the last write that came while another waited
 * All other bytes are 0. An instant is stored less 3, and 0 stands for never: 4 is stored as 1, and
 * 1,000,000,000 as 999,999,997. Now and the instant of a waiting write are not 0. A bank under
 * refresh (65535), a write whose data are due (1 at byte 729) and one whose retire closes its bank
 * (1 at byte 738 or 746) do not occur between requests.
 */
#define RDRAM_PLANNER_BYTES 768

/* The mask of a COL packet that is sent without one (M = 0). */
#define RDRAM_MASK_FULL 0xFFFFu

/* Commands. ACT to REFP are ROW packets, NOCOP to RDA are COL packets. */
enum rdram_command {
    RDRAM_ACT = 0, RDRAM_PRER = 1, RDRAM_REFA = 2, RDRAM_REFP = 3,
    RDRAM_NOCOP = 4, RDRAM_WR = 5, RDRAM_RD = 6, RDRAM_WRA = 7, RDRAM_RDA = 8
};

/* Kinds of record. Words are of kind ROW or COL. */
enum rdram_kind { RDRAM_KIND_ROW = 0, RDRAM_KIND_COL = 1, RDRAM_KIND_D = 2 };

/* Kinds of request. */
enum rdram_request {
    RDRAM_REQUEST_READ = 0, RDRAM_REQUEST_WRITE = 1, RDRAM_REQUEST_REFRESH = 2,
    RDRAM_REQUEST_WAIT = 3, RDRAM_REQUEST_FLUSH = 4, RDRAM_REQUEST_CLOSE = 5,
    RDRAM_REQUEST_READ_CLOSE = 6, RDRAM_REQUEST_WRITE_CLOSE = 7
};

/* Answer numbers. */
enum rdram_refusal {
    RDRAM_OK = 0,
    RDRAM_REFUSED_SETTINGS = 1,   /* settings, planner, model or meter: length, or out of range */
    RDRAM_REFUSED_KIND = 2,       /* request kind too high */
    RDRAM_REFUSED_SPARE = 3,      /* a request byte that its kind does not use is not 0 */
    RDRAM_REFUSED_BANK = 4,       /* bank above 31 */
    RDRAM_REFUSED_ROW = 5,        /* row not below rows */
    RDRAM_REFUSED_COLUMN = 6,     /* column not below columns */
    RDRAM_REFUSED_HORIZON = 7,    /* an instant would pass 1,000,000,000, or is below 4 */
    RDRAM_REFUSED_FULL = 8,       /* too little room in the buffer for the answer */
    RDRAM_REFUSED_STORE = 9,      /* wrong store length */
    RDRAM_REFUSED_WORD = 10,      /* a packet, word or record that has no coding */
    RDRAM_REFUSED_RULE = 11,      /* a record breaks one of the seventeen rules */
    RDRAM_REFUSED_BLOCK = 12,     /* a damaged or misplaced block */
    RDRAM_REFUSED_LENGTH = 13,    /* not whole requests, records or blocks */
    RDRAM_REFUSED_INDEX = 14,     /* an index that differs from its log */
    RDRAM_REFUSED_UNRETIRED = 15, /* a close while a write waits */
    RDRAM_REFUSED_OVERLAP = 16,   /* a data instant less than 4 after the newest */
    RDRAM_REFUSED_STAMP = 17      /* a stamped block whose settings are wrong or differ */
};

typedef struct { uint32_t number; uint64_t word; } rdram_word;

/*
 * place: the row of ACT, the column of WR, RD, WRA and RDA, else 0.
 * bank:  0 for NOCOP.
 * mask:  0 for a ROW packet; else the mask that the packet carries, and RDRAM_MASK_FULL where it
 *        carries none (M = 0).
 */
typedef struct {
    uint32_t number, command, bank, place, mask;
} rdram_packet;

/* banks: how many banks a close looked at, the highest open bank + 1, 0 to 32; 0 for other kinds. */
typedef struct {
    uint32_t number, banks;
    uint64_t records;
} rdram_planned;

/*
 * The word of a packet: 24 bits for a ROW packet, 40 for a COL packet. The device number is that of
 * the settings. The fields are those of rdram_packet.
 *
 * Refusals, in this order:
 *    1  settings: correct the settings bytes.
 *    4  bank above 31: correct the bank.
 *    5  the row of ACT is not below rows: correct the row.
 *    6  the column of WR, RD, WRA or RDA is not below columns: correct the column.
 *   10  the packet has no word: unknown command, mask above FFFF, or a field that the command does
 *       not use is not 0. Correct the fields.
 */
rdram_word rdram_word_encode(const uint8_t *settings, size_t settings_len, uint32_t command,
                             uint32_t bank, uint32_t place, uint32_t mask)
    RDRAM_READS(1, 2) RDRAM_ANSWER;

/*
 * The packet of a word. kind is RDRAM_KIND_ROW or RDRAM_KIND_COL.
 *
 * Refusals, in this order:
 *    1  settings: correct the settings bytes.
 *   10  another kind, or no packet has this word under these settings: another device, row or
 *       column out of range, unknown opcode, a fixed bit is wrong, or a full mask sent as M = 1.
 *       The word is damaged or was written under other settings.
 */
rdram_packet rdram_word_decode(const uint8_t *settings, size_t settings_len, uint32_t kind,
                               uint64_t word)
    RDRAM_READS(1, 2) RDRAM_ANSWER;

/*
 * Packs a list of records into a log of blocks. Timing rules are not tested.
 *
 * list_len is a multiple of 32. A list of n records needs n / 15 blocks, rounded up, and an empty
 * list none. The blocks are written to the start of log and count is their number; the bytes of log
 * after them are unchanged.
 *
 * Refusals, in this order:
 *    1  settings: correct the settings bytes.
 *   13  list_len is not a multiple of 32: pass whole records.
 *   10  place is the first record that has no coding: correct that record.
 *    8  log has fewer whole blocks than needed, or the list needs more than 2^32 blocks: pass a
 *       longer log, or the list in parts.
 */
rdram_copied rdram_log_encode(const uint8_t *RDRAM_RESTRICT settings, size_t settings_len,
                              const uint8_t *RDRAM_RESTRICT list, size_t list_len,
                              uint8_t *RDRAM_RESTRICT log, size_t log_len)
    RDRAM_READS(1, 2) RDRAM_READS(3, 4) RDRAM_WRITES(5, 6) RDRAM_ANSWER;

/*
 * Unpacks a log of blocks into a list of records. Timing rules are not tested.
 *
 * log_len is a multiple of 512. The records are written to the start of list and count is their
 * number, at most 15 for each block; the bytes of list after them are unchanged.
 *
 * Refusals, in this order:
 *    1  settings: correct the settings bytes.
 *   13  log_len is not a multiple of 512: pass whole blocks.
 *   12  place is the first block whose number, count, zeros, unused records or check is wrong.
 *   10  place is the first record that has no coding: the log was written under other settings, or
 *       not by this library.
 *    8  list has fewer whole records than needed: pass a longer list.
 */
rdram_copied rdram_log_decode(const uint8_t *RDRAM_RESTRICT settings, size_t settings_len,
                              const uint8_t *RDRAM_RESTRICT log, size_t log_len,
                              uint8_t *RDRAM_RESTRICT list, size_t list_len)
    RDRAM_READS(1, 2) RDRAM_READS(3, 4) RDRAM_WRITES(5, 6) RDRAM_ANSWER;

/*
 * Tests whether a list of records keeps the seventeen rules. list_len is a multiple of 32. The list
 * starts with every bank closed, the write buffer empty and no earlier record. Number 0: it passes;
 * an empty list passes. No buffer is written.
 *
 * Data come tCAC after their RD and go tCWD after their WR. Which banks are neighbours, the core form
 * says (enum rdram_core). PRER and REFP close their bank and each neighbour that is open or under
 * refresh. A write waits from its WR on. A COL packet other than RD retires the oldest, if tRTR has
 * passed since its WR. In 4 to 8, 13 and 14 ACT stands for ACT and REFA, and PRER for PRER and REFP.
 * "Near" is the same bank or a neighbour. A distance is the least one.
 *
 * RD stands for RD and RDA, and WR for WR and WRA. An RDA implies a PRER of its bank tOFFP after
 * itself, and a WRA one tOFFP after its retire. The order of what one packet does: retire, the PRER
 * that this implies, its own RD or WR, the PRER that an RDA implies. So from there on the bank is
 * closed, and what the implied PRER breaks that packet breaks. It keeps the range in 1, and 6, 7, 8,
 * 13 and 14, but not the order in 1, nor 2, nor the distance in 13 from its own read or retire.
 *
 *    1  ROW and COL instants never fall; all, data's and implied PRERs' too, 4 to 1,000,000,000
 *    2  ROW to ROW: 4
 *    3  COL to COL: tCC
 *    4  ACT: its bank and the neighbours are closed
 *    5  ACT to ACT: tRC where near, else tRR
 *    6  ACT to PRER, near: tRAS
 *    7  PRER to ACT, near it or a neighbour of a bank it closed: tRP
 *    8  PRER to PRER: tPP
 *    9  RD, WR and retire: the bank is open by ACT
 *   10  ACT to RD or retire, same bank: tRCD; to WR: tRCD - tRTR, at least 0
 *   11  RD to WR: tCC + tCAC - tCWD
 *   12  a NOCOP retires a write where one waits, a WR where two wait; no RD where two wait
 *   13  RD to PRER, near: tRDP; retire to PRER, near: tRTP
 *   14  PRER does not close the bank of a waiting write
 *   15  D directly after each WR, at WR + tCWD (or the list ends), no other D
 *   16  a mask (M = 1) only on a packet that retires a write
 *   17  from a WRA to its retire only its D, NOCOP and RD; no ROW packet before an implied PRER
 *
 * Refusals, in this order:
 *    1  settings: correct the settings bytes.
 *   13  list_len is not a multiple of 32: pass whole records.
 *   10  place is the first record of the whole list that has no coding: correct that record, or
 *       pass the settings under which it was written. No rule has been tested.
 *   11  place is the first record that breaks a rule, given the records before it, and rule the
 *       lowest that it breaks (1 to 17). The records before it pass; those after it have not been
 *       judged. A D that is missing is named at the record in its place. Move or correct that
 *       record and check again; rdram_shortest finds the few records that show the breach.
 */
rdram_judged rdram_check(const uint8_t *RDRAM_RESTRICT settings, size_t settings_len,
                         const uint8_t *RDRAM_RESTRICT list, size_t list_len)
    RDRAM_READS(1, 2) RDRAM_READS(3, 4) RDRAM_ANSWER;

/*
 * Tests whether the list that a log keeps keeps the seventeen rules of rdram_check. log_len is a
 * multiple of 512. Number 0: it passes; an empty log passes. No buffer is written.
 *
 * Refusals, in this order:
 *    1  settings: correct the settings bytes.
 *   13  log_len is not a multiple of 512: pass whole blocks.
 *   12  as in rdram_log_decode. No record has been tested.
 *   10, 11  as in rdram_check; records are counted over the whole log: record n is in block n / 15.
 */
rdram_judged rdram_check_log(const uint8_t *RDRAM_RESTRICT settings, size_t settings_len,
                             const uint8_t *RDRAM_RESTRICT log, size_t log_len)
    RDRAM_READS(1, 2) RDRAM_READS(3, 4) RDRAM_ANSWER;

/*
 * Writes a fresh planner: banks closed, write buffer empty, refresh bank 0, now 4. Answers 0, or
 * refusal 1 where planner_len is not 768: pass RDRAM_PLANNER_BYTES bytes.
 */
uint32_t rdram_planner_fresh(uint8_t *planner, size_t planner_len) RDRAM_WRITES(1, 2) RDRAM_ANSWER;

/*
 * Plans one request: makes the packets that serve it, each at the least instant, not before now, at
 * which it keeps the rules of rdram_check.
 *
 * The records are written to the start of room and `records` is their number, at most
 * RDRAM_REQUEST_RECORDS; the bytes of room after them are unchanged. planner becomes the state
 * after the request: pass it to the next call. The records of all accepted calls from a fresh
 * planner on, one after the other and under the same settings, are a list that passes rdram_check.
 *
 *   read     Where the row is not open: PRER to each open one of the bank and its neighbours, in
 *            rising order, then ACT. NOCOP while two writes wait, or one to this dualoct. RD.
 *   write    Where the row is not open: as for read. WR, then D. The write waits, alone or beside
 *            an older one, until a later NOCOP or WR retires it, which carries its mask.
 *   refresh  PRER as for read, about the refresh bank; REFA and REFP to it. The refresh bank
 *            rises, modulo 32.
 *   wait     No packet: now rises by the cycles.
 *   flush    NOCOP while a write waits. Rows stay open.
 *   close    PRER to each open bank, in rising order. No write may wait. It looks at no bank after
 *            the last open one, and `banks` is the number of those that it looked at.
 *   read and close   As read, but that NOCOPs come while any write waits in the bank, and RDA in
 *                    place of RD.
 *   write and close  As write, with WRA in place of WR; then NOCOPs until it has retired.
 *
 * NOCOPs stand before a PRER while it would close the bank of a waiting write. Now is the instant
 * of the latest packet, and what waits add to it; an implied PRER does not move it. Data bytes alter
 * no instant and no word.
 *
 * Refusals, in this order:
 *    1  settings: correct the settings bytes. Or planner is not 768 bytes, or not a state between
 *       requests under these settings: a field is out of its range, another byte is not 0, two
 *       neighbours are both open, the bank of a waiting write is not open, a bank is under
 *       refresh, data are due, or a WRA waits. Pass the bytes that the last call left, with the
 *       same settings, or a fresh planner.
 *   13  request_len is not 24: pass one whole request.
 *    2  the kind is above 7: correct the kind.
 *    3  a byte that the kind does not use is not 0: clear it.
 *    4  bank above 31: correct the bank.
 *    5  the row is not below rows: correct the row.
 *    6  the column is not below columns: correct the column.
 *   15  a close while a write waits: send a flush first.
 *    7  a packet, its data, an implied PRER or now would pass 1,000,000,000: the run is at its end.
 *       Go on with a fresh planner, or wait for fewer cycles.
 *    8  room has fewer whole records than needed: pass a longer room. A request that makes no
 *       record needs none.
 */
rdram_planned rdram_plan(const uint8_t *RDRAM_RESTRICT settings, size_t settings_len,
                         uint8_t *RDRAM_RESTRICT planner, size_t planner_len,
                         const uint8_t *RDRAM_RESTRICT request, size_t request_len,
                         uint8_t *RDRAM_RESTRICT room, size_t room_len)
    RDRAM_READS(1, 2) RDRAM_CHANGES(3, 4) RDRAM_READS(5, 6) RDRAM_WRITES(7, 8) RDRAM_ANSWER;

#ifdef __cplusplus
}
#endif

#ifdef RDRAM_DEBUG
#include "rdram_debug.h"
#endif

#endif
