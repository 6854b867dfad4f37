/*
 * rdram_model.h: a model of the device, with its store. Part of rdram.h, which includes it.
 */
#ifndef RDRAM_MODEL_H
#define RDRAM_MODEL_H

#include "rdram_attributes.h"
#include <stddef.h>
#include <stdint.h>

#ifdef __cplusplus
extern "C" {
#endif

/*
 * Store, rows x columns x 512 bytes: bank, then row, then column, then byte. A dualoct is the 16
 * bytes from 16 * ((bank * rows + row) * columns + column). Its bytes 0 to 7 travel on DQA,
 * earliest first, 8 to 15 on DQB. Mask bit i governs byte i.
 */
#define RDRAM_STORE_BYTES(rows, columns) ((size_t)512 * (rows) * (columns))
#define RDRAM_DUALOCT_BYTES 16

/*
 * Model, 792 bytes: the state of a device model between two records. A program need not look
 * inside; it may keep a copy, with one of the store, and go on from that.
 *    0  752     as in a planner, but that a bank may be under refresh (65535), the data of the
 *               newest waiting write may be due (1 at byte 729), and the retire of a waiting write
 *               may close its bank (1 at byte 738, or 746)
 *  752  2       REFR, the row that a refresh is due for, below rows
 *  760  16      data of the older waiting write; where they are due, or none waits, as at 776
 *  776  16      data of the last D that came while two writes waited
 * All other bytes are 0. The instants are those of the records that the model has taken.
 */
#define RDRAM_MODEL_BYTES 792

/* What a record that a model took did. */
enum rdram_event {
    RDRAM_EVENT_NONE = 0,   /* it neither read nor retired a write */
    RDRAM_EVENT_READ = 1,   /* an RD or RDA: its dualoct is in the answer buffer */
    RDRAM_EVENT_RETIRED = 2 /* it retired the older waiting write to the store */
};

/*
 * event: enum rdram_event.
 * bytes: the bytes that a retire wrote, 0 to 16; 0 for the other events.
 */
typedef struct {
    uint32_t number, rule, event, bytes;
} rdram_stepped;

/*
 * Writes a fresh model: banks closed, write buffer empty, no earlier record, REFR 0. Answers 0, or
 * refusal 1 where model_len is not 792: pass RDRAM_MODEL_BYTES bytes.
 */
uint32_t rdram_model_fresh(uint8_t *model, size_t model_len) RDRAM_WRITES(1, 2) RDRAM_ANSWER;

/*
 * Takes one record, as the device would: tests it by the rules of rdram_check, given the records
 * that the model has taken, and does what it says. model becomes the state after the record: pass
 * it to the next call, with the same settings and store. A fresh model takes a store of any bytes.
 *
 *   RD,      The 16 bytes of its dualoct, in the row open in its bank, are written to the start of
 *   RDA      answer; the bytes of answer after them are unchanged. Event RDRAM_EVENT_READ. A
 *            waiting write is not seen: it is not in the store yet. An RDA then closes its bank.
 *   NOCOP,   The write that it retires, if any, goes to the row open in its bank: byte i of its
 *   WR,      dualoct in store is written where bit i of the mask that this packet carries is 1, and
 *   WRA      all 16 where it carries none (M = 0). Event RDRAM_EVENT_RETIRED, and `bytes` is the
 *            number of bytes written. The bank of a WRA that it retires is then closed. A WR or WRA
 *            then waits itself, for its D and to be retired.
 *   D        brings the data of the WR or WRA before it.
 *   others   ACT, PRER, REFA and REFP open and close banks. REFR rises, modulo rows, after REFA to
 *            bank 31. The store is not read or written.
 *
 * Fed with the records of all accepted calls of rdram_plan, a model reads what an array of the
 * store's size would that each write sets at once, and after a flush the store is that array.
 *
 * Refusals, in this order:
 *    1  settings: correct the settings bytes. Or model is not 792 bytes, or no state under these
 *       settings: a field is out of its range, another byte is not 0, two neighbours are both not
 *       closed, the bank of a waiting write is not open by ACT, or data are due with no write
 *       waiting. Pass the bytes that the last call left, with the same settings, or a fresh
 *       model.
 *    9  store_len is not rows x columns x 512: pass the whole store.
 *   13  record_len is not 32: pass one whole record.
 *   10  the record has no coding: correct it, or pass the settings under which it was written.
 *   11  the record breaks a rule, and rule is the lowest that it breaks (1 to 17), given the
 *       records that the model has taken. Correct the list, or leave this record out and go on.
 *    8  answer has fewer than 16 bytes for an RD or RDA: pass the same record again with a longer
 *       answer. Other records need none.
 */
rdram_stepped rdram_model_step(const uint8_t *RDRAM_RESTRICT settings, size_t settings_len,
                               uint8_t *RDRAM_RESTRICT model, size_t model_len,
                               uint8_t *RDRAM_RESTRICT store, size_t store_len,
                               const uint8_t *RDRAM_RESTRICT record, size_t record_len,
                               uint8_t *RDRAM_RESTRICT answer, size_t answer_len)
    RDRAM_READS(1, 2) RDRAM_CHANGES(3, 4) RDRAM_CHANGES(5, 6) RDRAM_READS(7, 8)
    RDRAM_WRITES(9, 10) RDRAM_ANSWER;

#ifdef __cplusplus
}
#endif

#endif
