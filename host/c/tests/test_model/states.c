/* The model's bytes: fresh, after runs, and states that are refused or come back. */
#include "test_model.h"

void test_fresh(void)
{
    begin();
    int ok = 1;
    for (size_t i = 0; i < sizeof model; i++)
        ok &= model[i] == (i >= MODEL ? 0xA5 : 0);
    check(ok, "bytes of a fresh model");
    ok = other_lengths_refused(rdram_model_fresh, model, sizeof model, MODEL);
    check(ok, "a fresh model of another length");
    check(rdram_model_fresh(NULL, 0) == RDRAM_REFUSED_SETTINGS, "a fresh model at a null pointer");
}

#define DATA_11 {760, 8, 0xB7B6B5B4B3B2B1B0}, {768, 8, 0xBFBEBDBCBBBAB9B8}
#define DATA_15(at) {at, 8, 0xF7F6F5F4F3F2F1F0}, {at + 8, 8, 0xFFFEFDFCFBFAF9F8}

void test_state(void)
{
    static const field DUE[] = {AT(8, 4), AT(136, 4), {644, 2, 2}, AT(704, 5), AT(708, 4), AT(712, 5),
                                {728, 1, 1}, {729, 1, 1}, {736, 1, 2}, {737, 1, 3}, AT(740, 5)};
    run("4 ACT 2 1, 5 WR 2 3");
    check(state_is(model, MODEL, DUE, COUNT(DUE)), "state with data due");
    static const field WAITING[] = {AT(8, 4), AT(136, 4), {644, 2, 2}, AT(704, 5), AT(708, 4), AT(712, 5),
                                    {728, 1, 1}, {736, 1, 2}, {737, 1, 3}, AT(740, 5), DATA_11};
    run_more("11 D");
    check(state_is(model, MODEL, WAITING, COUNT(WAITING)), "state with a waiting write");
    static const field REFRESH[] = {AT(8, 4), AT(136, 4), AT(512 + 8, 13), {644, 2, 2}, AT(124, 12),
                                    {702, 2, 65535}, AT(704, 13), AT(708, 12), AT(712, 13), {752, 2, 1}};
    run_more("12 REFA 31, 13 NOCOP: wrote 16");
    check(state_is(model, MODEL, REFRESH, COUNT(REFRESH)), "state with a bank under refresh");
    static const field CLOSED[] = {AT(8, 4), AT(136, 4), AT(256 + 8, 24), AT(256 + 12, 24), AT(256 + 120, 32),
                                   AT(256 + 124, 32), AT(512 + 8, 13), AT(124, 12), AT(704, 32), AT(708, 32),
                                   AT(712, 13), AT(716, 32), {752, 2, 1}};
    run_more("24 PRER 3, 32 PRER 30");
    check(state_is(model, MODEL, CLOSED, COUNT(CLOSED)), "state after PRER to neighbours");
    static const field TWO_WAIT[] = {AT(8, 4), AT(136, 4), {644, 2, 2}, AT(704, 9), AT(708, 4), AT(712, 9),
                                     {728, 1, 2}, {736, 1, 2}, {737, 1, 3}, AT(740, 5), {744, 1, 2}, {745, 1, 1},
                                     AT(748, 9), DATA_11, DATA_15(776)};
    run("4 ACT 2 1, 5 WR 2 3, 11 D, 9 WR 2 1, 15 D");
    check(state_is(model, MODEL, TWO_WAIT, COUNT(TWO_WAIT)), "state with two waiting writes");
    static const field ONE_LEFT[] = {AT(8, 4), AT(136, 4), AT(512 + 8, 13), {644, 2, 2}, AT(704, 13), AT(708, 4),
                                     AT(712, 13), {728, 1, 1}, {736, 1, 2}, {737, 1, 1}, AT(740, 9), DATA_15(760),
                                     DATA_15(776)};
    run_more("13 NOCOP: wrote 16");
    check(state_is(model, MODEL, ONE_LEFT, COUNT(ONE_LEFT)), "state once the older write has retired");
    static const field LATEST[] = {AT(124, LAST - 40), AT(252, LAST - 40), AT(384 + 124, LAST - 8), {702, 2, 1},
                                   AT(704, LAST - 8), AT(708, LAST - 40), AT(712, LAST - 8), AT(720, LAST - 8)};
    run("999999960 ACT 31, 999999992 RD 31: reads");
    check(state_is(model, MODEL, LATEST, COUNT(LATEST)), "state at the last instants");
}

void test_closing_states(void)
{
    static const field WAITING[] = {AT(8, 4), AT(136, 4), {644, 2, 2}, AT(704, 5), AT(708, 4), AT(712, 5),
                                    {728, 1, 1}, {736, 1, 2}, {737, 1, 3}, {738, 2, 1}, AT(740, 5), DATA_11};
    run("4 ACT 2 1, 5 WRA 2 3, 11 D");
    check(state_is(model, MODEL, WAITING, COUNT(WAITING)), "state with a waiting WRA");
    static const field RETIRED[] = {AT(8, 4), AT(136, 4), AT(264, 24), AT(520, 20), AT(704, 20), AT(708, 4),
                                    AT(712, 20), AT(716, 24), AT(724, 24)};
    run_more("20 NOCOP: wrote 16");
    check(state_is(model, MODEL, RETIRED, COUNT(RETIRED)), "state once the WRA has retired");
    static const field TWO_WAIT[] = {AT(8, 4), AT(136, 4), {644, 2, 2}, AT(704, 9), AT(708, 4), AT(712, 9),
                                     {728, 1, 2}, {736, 1, 2}, {737, 1, 3}, AT(740, 5), {744, 1, 2}, {745, 1, 1},
                                     {746, 2, 1}, AT(748, 9), DATA_11, DATA_15(776)};
    run("4 ACT 2 1, 5 WR 2 3, 11 D, 9 WRA 2 1, 15 D");
    check(state_is(model, MODEL, TWO_WAIT, COUNT(TWO_WAIT)), "state with a WRA beside a waiting WR");
    static const field ONE_LEFT[] = {AT(8, 4), AT(136, 4), AT(520, 13), {644, 2, 2}, AT(704, 13), AT(708, 4),
                                     AT(712, 13), {728, 1, 1}, {736, 1, 2}, {737, 1, 1}, {738, 2, 1}, AT(740, 9),
                                     DATA_15(760), DATA_15(776)};
    run_more("13 NOCOP: wrote 16");
    check(state_is(model, MODEL, ONE_LEFT, COUNT(ONE_LEFT)), "state with the WRA left");
    static const field READ[] = {AT(8, 4), AT(136, 4), AT(264, 24), AT(392, 20), AT(704, 20), AT(708, 4), AT(712, 20),
                                 AT(716, 24), AT(720, 20), AT(724, 24)};
    run("4 ACT 2 1, 20 RDA 2: reads");
    check(state_is(model, MODEL, READ, COUNT(READ)), "state after an RDA");
}

/* States with bank 2 open on row 1: no write, one with data due, one that waits, two with data due, two that wait. */
static uint8_t none_waits[MODEL], is_due[MODEL], waits[MODEL], second_due[MODEL], two_wait[MODEL];

static void make_states(void)
{
    run("4 ACT 2 1");
    memcpy(none_waits, model, MODEL);
    run_more("5 WR 2 3");
    memcpy(is_due, model, MODEL);
    run_more("11 D");
    memcpy(waits, model, MODEL);
    run_more("9 WR 2 1");
    memcpy(second_due, model, MODEL);
    run_more("15 D");
    memcpy(two_wait, model, MODEL);
}

/* A state with one field changed. */
static void use_state(const uint8_t *state, field changed)
{
    memcpy(model, state, MODEL);
    put(model + changed.offset, changed.value, changed.bytes);
}

static int refused_with(const uint8_t *state, field changed)
{
    use_state(state, changed);
    use_record("999999999 RD 2");
    return refuses(RDRAM_REFUSED_SETTINGS, 0, DUALOCT);
}

/* Taken with a PRER at the last instant, which changes nothing but its own fields. */
static int comes_back_with(const uint8_t *state, field changed)
{
    static uint8_t kept[MODEL];
    static const int CHANGED[] = {256 + 80, 704, 708, 716};
    use_state(state, changed);
    memcpy(kept, model, MODEL);
    use_record("1000000000 PRER 20");
    rdram_stepped got = step(0);
    for (size_t i = 0; i < COUNT(CHANGED); i++)
        put(kept + CHANGED[i], LAST - 3, 4);
    return is(got, 0, 0, 0, 0) && memcmp(model, kept, MODEL) == 0 && guards_stay();
}

void test_refused_states(void)
{
    static const field BAD[] = {
        /* a row that is not below 2, the bank of the waiting write closed or under refresh, neighbours */
        {640, 2, 3}, {656, 2, 513}, {702, 2, 65534}, {644, 2, 0}, {644, 2, 65535}, {642, 2, 1}, {646, 2, 65535},
        {736, 1, 3}, {736, 1, 32}, {736, 1, 255},
        /* how many writes wait; whether data are due; column; no instant */
        {728, 1, 0}, {728, 1, 2}, {728, 1, 255}, {729, 1, 2}, {729, 1, 255}, {737, 1, 4}, {737, 1, 255}, {740, 4, 0},
        /* REFR */
        {752, 2, 2}, {752, 2, 256}, {752, 2, 65535}};
    static const field GOOD[] = {
        {644, 2, 1}, {648, 2, 2}, {702, 2, 65535}, {640, 2, 65535}, {736, 1, 2}, {737, 1, 0}, {737, 1, 3},
        {752, 2, 0}, {752, 2, 1}, {760, 8, 0}, {768, 8, 0xFFFFFFFFFFFFFFFF}, {776, 8, 1},
        {784, 8, 0xFFFFFFFFFFFFFFFF}};
    make_states();
    for (size_t i = 0; i < COUNT(BAD); i++)
        check(refused_with(waits, BAD[i]) && refused_with(is_due, BAD[i]), "state with %" PRIu64 " at %d", BAD[i].value,
              BAD[i].offset);
    for (size_t i = 0; i < COUNT(GOOD); i++)
        check(comes_back_with(waits, GOOD[i]), "state with %" PRIu64 " at %d comes back", GOOD[i].value,
              GOOD[i].offset);
    use_state(waits, (field){729, 1, 1});
    run_more("11 D");
    check(model[729] == 0, "the data are due again, and come");
}

/* Where no write waits: one that has no instant, data due, and bank, column or instant of none. */
void test_no_write(void)
{
    static const field BAD[] = {
        {728, 1, 1}, {728, 1, 2}, {729, 1, 1}, {729, 1, 2}, {728, 2, 0x0101}, {736, 1, 2}, {736, 1, 32}, {737, 1, 1},
        {740, 4, 1}, {740, 4, LAST - 3}, {740, 4, LAST}};
    make_states();
    for (size_t i = 0; i < COUNT(BAD); i++)
        check(refused_with(none_waits, BAD[i]), "state without a write, %" PRIu64 " at %d", BAD[i].value,
              BAD[i].offset);
}

/* Where two writes wait, and where one does: the second's bank, column and instant. */
void test_second_write(void)
{
    static const field BAD[] = {
        {644, 2, 0}, {644, 2, 65535}, {728, 1, 0}, {728, 1, 1}, {728, 1, 3}, {729, 1, 2}, {736, 1, 3}, {736, 1, 32},
        {740, 4, 0}, {744, 1, 0}, {744, 1, 3}, {744, 1, 32}, {744, 1, 255}, {745, 1, 4}, {745, 1, 255}, {748, 4, 0}};
    static const field GOOD[] = {
        {644, 2, 1}, {737, 1, 0}, {740, 4, LAST - 3}, {745, 1, 0}, {745, 1, 3}, {748, 4, 1}, {776, 8, 0}, {784, 8, 1}};
    static const field NONE[] = {{744, 1, 2}, {744, 1, 32}, {745, 1, 1}, {748, 4, 1}, {748, 4, LAST}};
    make_states();
    for (size_t i = 0; i < COUNT(BAD); i++)
        check(refused_with(two_wait, BAD[i]) && refused_with(second_due, BAD[i]), "two writes, %" PRIu64 " at %d",
              BAD[i].value, BAD[i].offset);
    for (size_t i = 0; i < COUNT(GOOD); i++)
        check(comes_back_with(two_wait, GOOD[i]), "two writes, %" PRIu64 " at %d comes back", GOOD[i].value,
              GOOD[i].offset);
    for (size_t i = 0; i < COUNT(NONE); i++)
        check(refused_with(waits, NONE[i]) && refused_with(is_due, NONE[i]) && refused_with(none_waits, NONE[i]),
              "no second write, %" PRIu64 " at %d", NONE[i].value, NONE[i].offset);
    use_state(two_wait, (field){729, 1, 1});
    run_more("11 D: rule 15, 15 D");
    check(model[729] == 0, "the data of the newer write are due again, and come");
}

/* Whether a waiting write is a WRA: 0 or 1, and 0 where none waits. */
void test_closing_flags(void)
{
    static const uint64_t BAD[] = {2, 3, 255, 256, 257, 65535};
    make_states();
    for (size_t i = 0; i < COUNT(BAD); i++) {
        field older = {738, 2, BAD[i]}, newer = {746, 2, BAD[i]};
        check(refused_with(waits, older) && refused_with(two_wait, older) && refused_with(two_wait, newer)
                  && refused_with(none_waits, older) && refused_with(none_waits, newer),
              "%" PRIu64 " in the place of a WRA's flag", BAD[i]);
    }
    check(refused_with(none_waits, (field){738, 2, 1}) && refused_with(waits, (field){746, 2, 1}),
          "a WRA where none waits");
    /* a waiting write that is made a WRA: no ROW packet before its retire, which closes the bank */
    use_state(waits, (field){738, 2, 1});
    run_more("12 PRER 20: rule 17, 20 NOCOP: wrote 16, 24 RD 2: rule 9, 23 PRER 20: rule 8, 32 PRER 20");
    use_state(two_wait, (field){746, 2, 1});
    run_more("12 PRER 20: rule 17, 13 NOCOP: wrote 16, 20 NOCOP: wrote 16, 24 RD 2: rule 9");
    /* no run makes these: a write waits behind a WRA, in its bank */
    use_state(two_wait, (field){738, 2, 1});
    run_more("12 PRER 20: rule 17, 20 NOCOP: rule 14, 20 WR 2: rule 9");
    put(model + 746, 1, 2);
    run_more("12 PRER 20: rule 17, 20 NOCOP: rule 14, 20 WR 2: rule 9");
}

/* Every last instant and those of the waiting writes at and beyond the ends of their range. */
void test_stored_instants(void)
{
    make_states();
    for (int n = 0; n < LAST_INSTANTS + 2; n++) {
        int last = n < LAST_INSTANTS, offset = last ? instant_offset(n) : 740 + 8 * (n - LAST_INSTANTS), ok = 1;
        for (size_t i = last ? 0 : 1; i < COUNT(IN_RANGE); i++) {
            /* a record without coding: its refusal comes after that of a state, and before the rules */
            use_state(two_wait, (field){offset, 4, IN_RANGE[i]});
            use_record("4 PRER 20");
            record[31] = 1;
            ok &= refuses(RDRAM_REFUSED_WORD, 0, 0);
        }
        check(ok, "instants at %d that are not refused", offset);
        ok = 1;
        for (size_t i = 0; i < COUNT(OUT_OF_RANGE); i++)
            ok &= refused_with(two_wait, (field){offset, 4, OUT_OF_RANGE[i]});
        check(ok, "instants at %d that are refused", offset);
    }
    check(comes_back_with(waits, (field){0, 4, 0}) && comes_back_with(waits, (field){0, 4, 1}), "the first instants");
    check(comes_back_with(waits, (field){636, 4, LAST - 3}), "the last instant of a bank");
    check(comes_back_with(waits, (field){720, 4, LAST - 3}), "the last instant of an RD");
    check(comes_back_with(waits, (field){724, 4, LAST - 3}), "the last instant of an implied PRER");
    check(comes_back_with(waits, (field){740, 4, 1}), "the first instant of a WR");
    check(comes_back_with(waits, (field){740, 4, LAST - 3}), "the last instant of a WR");
}

/* Each bit of the bytes that no field uses. */
void test_unused_bytes(void)
{
    static const int PARTS[][2] = {UNUSED, {739, 1}, {747, 1}, {754, 6}};
    make_states();
    for (size_t i = 0; i < COUNT(PARTS); i++)
        for (int byte = PARTS[i][0]; byte < PARTS[i][0] + PARTS[i][1]; byte++) {
            int ok = 1;
            for (int bit = 0; bit < 8; bit++) {
                field one = {byte, 1, (uint64_t)1 << bit};
                ok &= refused_with(waits, one) && refused_with(is_due, one) && refused_with(none_waits, one);
                ok &= refused_with(two_wait, one) && refused_with(second_due, one);
            }
            check(ok, "byte %d, which is not used", byte);
        }
}

/* One bank open and one under refresh: refused where they are neighbours, which the core form says. */
void test_states_by_core(void)
{
    for (unsigned core = 0; core < CORES; core++) {
        int ok = 1;
        begin();
        use_core(core);
        for (int a = 0; a < 32; a++)
            for (int b = 0; b < 32; b++) {
                int neighbours = (a - b == 1 || b - a == 1) && (core == 1 || (core == 0 && a / 16 == b / 16));
                ok &= rdram_model_fresh(model, MODEL) == 0;
                put(model + 640 + 2 * a, 1, 2);
                put(model + 640 + 2 * b, 65535, 2);
                /* a record without coding, whose refusal comes after that of a state */
                use_record("4 PRER 20");
                record[31] = 1;
                ok &= refuses(neighbours ? RDRAM_REFUSED_SETTINGS : RDRAM_REFUSED_WORD, 0, 0);
            }
        check(ok, "two banks not closed, core form %u", core);
    }
}
