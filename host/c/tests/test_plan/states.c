/* The planner's bytes: fresh, after runs, and states that are refused or come back. */
#include "test_plan.h"

void test_fresh(void)
{
    begin();
    int ok = 1;
    for (size_t i = 0; i < sizeof planner; i++)
        ok &= planner[i] == (i >= PLANNER ? 0xA5 : i == 752 ? 1 : 0);
    check(ok, "bytes of a fresh planner");
    ok = other_lengths_refused(rdram_planner_fresh, planner, sizeof planner, PLANNER);
    check(ok, "a fresh planner of another length");
    check(rdram_planner_fresh(NULL, 0) == RDRAM_REFUSED_SETTINGS, "a fresh planner at a null pointer");
}

void test_state(void)
{
    /* ACT 0 at 4, RD at 13, WR at 19 */
    static const field WAITING[] = {
        AT(0, 4), AT(128, 4), AT(384, 13), {640, 2, 1},
        AT(704, 19), AT(708, 4), AT(712, 19), AT(720, 13),
        {728, 1, 1}, {737, 1, 1}, AT(740, 19), AT(752, 19), {760, 2, 3}};
    plan_all("read 0 0 1, write 0 0 1 0003");
    check(state_is(planner, PLANNER, WAITING, COUNT(WAITING)), "state with a waiting write");
    /* run 1 to its end: NOCOP 27, RD 31, PRER 0 at 35, ACT 1 at 43, RD 52, PRER 1 at 63 */
    static const field CLOSED[] = {
        AT(0, 4), AT(4, 43), AT(128, 4), AT(132, 43), AT(256, 35), AT(260, 63),
        AT(384, 31), AT(388, 52), AT(512, 27),
        AT(704, 63), AT(708, 63), AT(712, 52), AT(716, 63), AT(720, 52),
        AT(752, 63)};
    plan_all("read 0 0 1, write 0 0 1 0003, read 0 0 1, read 1 0 0, flush, close");
    check(state_is(planner, PLANNER, CLOSED, COUNT(CLOSED)), "state after run 1");
    /* ACT 0 at 4, WR at 5, WR at 9 */
    static const field TWO_WAIT[] = {
        AT(0, 4), AT(128, 4), {640, 2, 1}, AT(704, 9), AT(708, 4), AT(712, 9),
        {728, 1, 2}, {737, 1, 1}, AT(740, 5), {745, 1, 3}, AT(748, 9), AT(752, 9), {760, 2, 3}, {762, 2, 6}};
    plan_all("write 0 0 1 0003, write 0 0 3 0006");
    check(state_is(planner, PLANNER, TWO_WAIT, COUNT(TWO_WAIT)), "state with two waiting writes");
    /* NOCOP 13, RD 17 */
    static const field ONE_LEFT[] = {
        AT(0, 4), AT(128, 4), AT(384, 17), AT(512, 13), {640, 2, 1}, AT(704, 17), AT(708, 4), AT(712, 17), AT(720, 17),
        {728, 1, 1}, {737, 1, 3}, AT(740, 9), AT(752, 17), {760, 2, 6}, {762, 2, 6}};
    check(plan_more("read 0 0 1"), "a read of the older write's dualoct");
    check(state_is(planner, PLANNER, ONE_LEFT, COUNT(ONE_LEFT)), "state once the older write has retired");
    /* REFA 0 at 4, REFP 0 at 24, ACT 31 at 28, RD at 37, a wait */
    static const field REFRESHED[] = {
        AT(0, 4), AT(124, 28), AT(252, 28), AT(256, 24), AT(508, 37), {702, 2, 2},
        AT(704, 37), AT(708, 28), AT(712, 37), AT(716, 24), AT(720, 37),
        AT(752, 1037), {756, 2, 1}};
    plan_all("refresh, read 31 1 0, wait 1000");
    check(state_is(planner, PLANNER, REFRESHED, COUNT(REFRESHED)), "state after a refresh");
    /* ACT 31, WR one later, a wait to the last instant */
    static const field LATEST[] = {
        AT(124, LAST - 16), AT(252, LAST - 16), {702, 2, 2}, AT(704, LAST - 15), AT(708, LAST - 16), AT(712, LAST - 15),
        {728, 1, 1}, {736, 1, 31}, {737, 1, 3}, AT(740, LAST - 15), AT(752, LAST), {760, 2, 0xABCD}};
    plan_all("wait 999999980, write 31 1 3 ABCD, wait 15");
    check(state_is(planner, PLANNER, LATEST, COUNT(LATEST)), "state at the last instant");
}

void test_closing_states(void)
{
    /* ACT 2 at 4, RDA at 20, its PRER at 24 */
    static const field READ[] = {
        AT(8, 4), AT(136, 4), AT(264, 24), AT(392, 20), AT(704, 20), AT(708, 4), AT(712, 20), AT(716, 24), AT(720, 20),
        AT(724, 24), AT(752, 20)};
    plan_all("reada 2 1 3");
    check(state_is(planner, PLANNER, READ, COUNT(READ)), "state after a closing read");
    /* ACT 2 at 4, WRA at 5, NOCOP at 20, its PRER at 24 */
    static const field WRITTEN[] = {
        AT(8, 4), AT(136, 4), AT(264, 24), AT(520, 20), AT(704, 20), AT(708, 4), AT(712, 20), AT(716, 24), AT(724, 24),
        AT(752, 20)};
    plan_all("writea 2 1 3 00FF");
    check(state_is(planner, PLANNER, WRITTEN, COUNT(WRITTEN)), "state after a closing write");
    /* ACT 2 at 4, WR at 5, WRA at 9, NOCOPs at 13 and 20; ACT 0 at 24, RD at 33, PRER at 44 */
    static const field MORE[] = {
        AT(0, 24), AT(8, 4), AT(128, 24), AT(136, 4), AT(256, 44), AT(264, 24), AT(384, 33), AT(520, 20), AT(704, 44),
        AT(708, 44), AT(712, 33), AT(716, 44), AT(720, 33), AT(724, 24), AT(752, 44), {760, 2, 6}, {762, 2, 6}};
    plan_all("write 2 1 3 0003, writea 2 1 0 0006, read 0, close");
    check(state_is(planner, PLANNER, MORE, COUNT(MORE)), "state after a closing write beside another, and a close");
}

/* States with bank 0 open on row 0, and with one write waiting in it, two, or none. */
static uint8_t waits[PLANNER], two_wait[PLANNER], none_waits[PLANNER];

static void make_states(void)
{
    plan_all("read 0 0 1");
    memcpy(none_waits, planner, PLANNER);
    plan_all("write 0 0 1 0003");
    memcpy(waits, planner, PLANNER);
    plan_more("write 0 0 2 0006");
    memcpy(two_wait, planner, PLANNER);
    use_request("wait 0");
}

/* A state with one field changed. */
static void use_state(const uint8_t *state, field changed)
{
    memcpy(planner, state, PLANNER);
    put(planner + changed.offset, changed.value, changed.bytes);
}

static int refused_with(const uint8_t *state, field changed)
{
    use_state(state, changed);
    return refuses(RDRAM_REFUSED_SETTINGS, PLANNER, REQUEST, ROOM);
}

static int comes_back_with(const uint8_t *state, field changed)
{
    use_state(state, changed);
    return accepts(0) && memcmp(planner, planner_before, PLANNER) == 0;
}

void test_refused_states(void)
{
    static const field BAD[] = {
        /* a row that is not below 2, a bank under refresh */
        {640, 2, 3}, {656, 2, 513}, {702, 2, 3}, {702, 2, 65535}, {640, 2, 65535},
        /* the bank of the waiting write closed, an open neighbour */
        {640, 2, 0}, {642, 2, 1}, {736, 1, 1}, {736, 1, 32}, {736, 1, 255},
        /* how many writes wait; data due; the column */
        {728, 1, 0}, {728, 1, 2}, {728, 1, 255}, {729, 1, 1}, {729, 1, 2}, {729, 1, 255}, {737, 1, 4}, {737, 1, 255},
        /* a WRA that waits, and what is no flag */
        {738, 2, 1}, {738, 2, 2}, {738, 2, 256}, {738, 2, 65535}, {746, 2, 1},
        /* no instant of the waiting write, no now; the refresh bank */
        {740, 4, 0}, {752, 4, 0}, {756, 2, 32}, {756, 2, 256}, {756, 2, 65535}};
    static const field GOOD[] = {
        {640, 2, 2}, {644, 2, 1}, {702, 2, 2}, {737, 1, 0}, {737, 1, 3},
        {756, 2, 0}, {756, 2, 31}, {760, 2, 0}, {760, 2, 65535}, {762, 2, 0}, {762, 2, 65535}};
    make_states();
    for (size_t i = 0; i < COUNT(BAD); i++)
        check(refused_with(waits, BAD[i]), "state with %" PRIu64 " at %d", BAD[i].value, BAD[i].offset);
    for (size_t i = 0; i < COUNT(GOOD); i++)
        check(comes_back_with(waits, GOOD[i]), "state with %" PRIu64 " at %d comes back", GOOD[i].value,
              GOOD[i].offset);
}

/* Where two writes wait, and where one does: the second's bank, column and instant. */
void test_second_write(void)
{
    static const field BAD[] = {
        {640, 2, 0}, {640, 2, 65535}, {728, 1, 0}, {728, 1, 1}, {728, 1, 3}, {729, 1, 1}, {736, 1, 2}, {736, 1, 32},
        {740, 4, 0}, {744, 1, 1}, {744, 1, 2}, {744, 1, 32}, {744, 1, 255}, {745, 1, 4}, {745, 1, 255}, {748, 4, 0},
        {738, 2, 1}, {746, 2, 1}, {746, 2, 2}};
    static const field GOOD[] = {
        {640, 2, 2}, {737, 1, 3}, {740, 4, LAST - 3}, {745, 1, 0}, {745, 1, 3}, {748, 4, 1}, {762, 2, 65535}};
    static const field NONE[] = {{744, 1, 1}, {744, 1, 32}, {745, 1, 1}, {748, 4, 1}, {748, 4, LAST}};
    make_states();
    for (size_t i = 0; i < COUNT(BAD); i++)
        check(refused_with(two_wait, BAD[i]), "two writes, %" PRIu64 " at %d", BAD[i].value, BAD[i].offset);
    for (size_t i = 0; i < COUNT(GOOD); i++)
        check(comes_back_with(two_wait, GOOD[i]), "two writes, %" PRIu64 " at %d comes back", GOOD[i].value,
              GOOD[i].offset);
    for (size_t i = 0; i < COUNT(NONE); i++)
        check(refused_with(waits, NONE[i]) && refused_with(none_waits, NONE[i]), "no second write, %" PRIu64 " at %d",
              NONE[i].value, NONE[i].offset);
}

/* Where no write waits: one that has no instant, data due, and bank, column or instant of none. */
void test_no_write(void)
{
    static const field BAD[] = {
        {728, 1, 1}, {728, 1, 2}, {729, 1, 1}, {729, 1, 2}, {728, 2, 0x0101}, {736, 1, 1}, {736, 1, 32}, {737, 1, 1},
        {740, 4, 1}, {740, 4, LAST - 3}, {740, 4, LAST}};
    make_states();
    for (size_t i = 0; i < COUNT(BAD); i++)
        check(refused_with(none_waits, BAD[i]), "state without a write, %" PRIu64 " at %d", BAD[i].value,
              BAD[i].offset);
}

/* Every last instant, those of the waiting writes and now, at and beyond the ends of their range. */
void test_stored_instants(void)
{
    make_states();
    for (int n = 0; n < LAST_INSTANTS + 3; n++) {
        static const int OTHERS[] = {740, 748, 752};
        int last = n < LAST_INSTANTS, ok = 1;
        int offset = last ? instant_offset(n) : OTHERS[n - LAST_INSTANTS];
        for (size_t i = last ? 0 : 1; i < COUNT(IN_RANGE); i++)
            ok &= comes_back_with(two_wait, (field){offset, 4, IN_RANGE[i]});
        check(ok, "instants at %d that come back", offset);
        ok = 1;
        for (size_t i = 0; i < COUNT(OUT_OF_RANGE); i++)
            ok &= refused_with(two_wait, (field){offset, 4, OUT_OF_RANGE[i]});
        check(ok, "instants at %d that are refused", offset);
    }
}

/* Each bit of the bytes that no field uses, and of those that say a WRA waits. */
void test_unused_bytes(void)
{
    static const int PARTS[][2] = {UNUSED, {738, 2}, {746, 2}, {758, 2}, {764, 4}};
    make_states();
    for (size_t i = 0; i < COUNT(PARTS); i++)
        for (int byte = PARTS[i][0]; byte < PARTS[i][0] + PARTS[i][1]; byte++) {
            int ok = 1;
            for (int bit = 0; bit < 8; bit++) {
                field one = {byte, 1, (uint64_t)1 << bit};
                ok &= refused_with(waits, one) && refused_with(two_wait, one) && refused_with(none_waits, one);
            }
            check(ok, "byte %d, which is not used", byte);
        }
}

/* Two open banks: refused where they are neighbours, which the core form says. */
void test_states_by_core(void)
{
    for (unsigned core = 0; core < CORES; core++) {
        make_states();
        use_core(core);
        int ok = 1;
        for (int a = 0; a < 32; a++)
            for (int b = 0; b < 32; b++) {
                int neighbours = (a - b == 1 || b - a == 1) && (core == 1 || (core == 0 && a / 16 == b / 16));
                uint8_t one_open[PLANNER];
                field other = {640 + 2 * b, 2, 2};
                ok &= rdram_planner_fresh(one_open, PLANNER) == 0;
                put(one_open + 640 + 2 * a, 1, 2);
                ok &= neighbours ? refused_with(one_open, other) : comes_back_with(one_open, other);
            }
        check(ok, "two open banks, core form %u", core);
    }
    /* 15 and 16 are open: a state of forms 0 and 2, and of none above 2 */
    for (unsigned core = 0; core < 5; core++) {
        plan_all("read 15, read 16");
        use_core(core);
        use_request("wait 0");
        int ok = core == 0 || core == 2 ? accepts(0) : refuses(RDRAM_REFUSED_SETTINGS, PLANNER, REQUEST, ROOM);
        check(ok, "banks 15 and 16 open, core form %u", core);
    }
}
