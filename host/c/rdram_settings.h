/*
 * rdram_settings.h: the settings that calls take. Part of rdram.h, which includes it.
 */
#ifndef RDRAM_SETTINGS_H
#define RDRAM_SETTINGS_H

/*
 * Settings, 32 bytes: sixteen 16-bit numbers in this order, each with its low byte first. The timings are
 * those of the device's data sheet ("Timing Parameters", the column of its grade) under the same names, in
 * cycles; a figure in ns is divided by tCYCLE and rounded up. tCAC, tCWD and tOFFP are what the device
 * does. The others are least distances, and larger ones do no harm but for the time.
 *    0  tRC    4 to 64   ACT to ACT of a bank
 *    1  tRAS   4 to 64   ACT to PRER of a bank
 *    2  tRP    4 to 64   PRER to ACT of a bank
 *    3  tPP    4 to 64   PRER to PRER of the device
 *    4  tRR    4 to 64   ACT to ACT of the device
 *    5  tRCD   4 to 64   ACT to RD, or to the packet that retires a write
 *    6  tRTR   4 to 64   WR to the packet that retires it
 *    7  tRDP   4 to 64   the last RD to PRER
 *    8  tRTP   4 to 64   the last retire to PRER
 *    9  tCC    4 to 16   COL packet to COL packet
 *   10  tCAC   7 to 12   RD to its data, as the device's registers are set
 *   11  tCWD   1 to tCAC - 1   WR to its data
 *   12  tOFFP  4 to 32   RDA, or the retire of a WRA, to the PRER that it implies
 *   13  rows       1 to 512   of a bank
 *   14  columns    1 to 128   dualocts of a row: its bytes, without the ninth bits, over 16
 *   15  device     0 to 31, in the low byte: DEVID. Core form (enum rdram_core) in the high byte
 * A number out of its range, a core form above 2 and another length are refused under 1: correct that
 * number, or pass 32 bytes.
 *
 * A 288 Mbit device of grade -C80-45 has 28 20 8 8 8 9 8 4 4 4 8 6 4, 512 rows and 128 columns, and a
 * split core.
 */
#define RDRAM_SETTINGS_BYTES 32

/*
 * Core forms: which banks are neighbours, that is share sense amps. Before an ACT or a refresh a bank
 * and its neighbours are closed, and a PRER to a bank closes its open neighbours too. The registers CNFGA
 * (DBL) and CNFGB (SPT) of a device say which form it has.
 */
enum rdram_core {
    RDRAM_CORE_SPLIT = 0,      /* DBL 1, SPT 1. Two runs of 16 banks: numbers that differ by 1, but for 15 and 16 */
    RDRAM_CORE_ONE_RUN = 1,    /* DBL 1, SPT 0. One run of 32 dependent banks: numbers that differ by 1 */
    RDRAM_CORE_INDEPENDENT = 2 /* DBL 0. No dependency: no bank has a neighbour, all 32 may be open */
};

/* The byte of the settings that has the core form: settings[RDRAM_SETTINGS_CORE] = RDRAM_CORE_ONE_RUN; */
#define RDRAM_SETTINGS_CORE 31

/*
 * Set H, for a first try: the timings above, 2 rows, 4 columns, device 0 and a split core.
 *     static const uint8_t settings[RDRAM_SETTINGS_BYTES] = RDRAM_SET_H;
 * rdram_settings_put of rdram_util.h makes settings of other figures.
 */
#define RDRAM_SET_H {28, 0, 20, 0, 8, 0, 8, 0, 8, 0, 9, 0, 8, 0, 4, 0, 4, 0, 4, 0, 8, 0, 6, 0, 4, 0, 2, 0, 4, 0, 0, 0}

#endif
