/* The plan checker, the timetable checker and the step reader called from C: input and answer one line each. */
#include "expect.h"
#include "wichteab.h"

/* The case book's order: F, rack 1 from 0 to 3, rack 2 from 3 to 0. */
static const uint8_t order[] = {0x08, 0x0A, 0x08, 0x00, 0x10, 0x02, 0x04, 0x20, 0x43, 0x08, 0x30, 0x03, 0x0C, 0x00};

struct one_case {
    const char *name;
    uint32_t number;
    uint32_t place; /* accepted: the moves */
    size_t length;
    uint8_t bytes[12];
};

static const struct one_case plans[] = {
    {"the case book's plan", 0, 4, 9, {0x00, 0x00, 0x10, 0x00, 0x10, 0xC2, 0x08, 0x00, 0x43}},
    {"the same in edition two", 0, 4, 12, {0x00, 0x00, 0x11, 0x00, 0x10, 0x03, 0x08, 0x10, 0x80, 0x04, 0x10, 0xC0}},
    {"two bytes", 30, 0, 2, {0x00, 0x00}},
    {"a move missing", 30, 0, 3, {0x00, 0x00, 0x04}},
    {"a byte too many", 30, 0, 4, {0x00, 0x00, 0x00, 0x00}},
    {"the spare bits 10", 31, 0, 3, {0x00, 0x00, 0x02}},
    {"the spare bits 11", 31, 0, 3, {0x00, 0x00, 0x03}},
    {"a pad bit set", 31, 0, 5, {0x00, 0x00, 0x04, 0x00, 0x18}},
    {"the second move not along an edge", 32, 2, 6, {0x00, 0x00, 0x08, 0x00, 0x10, 0xC0}},
    {"the first move to position 4 of 4", 32, 1, 5, {0x00, 0x00, 0x04, 0x00, 0x40}},
    {"the first move from position 63", 32, 1, 5, {0x00, 0x00, 0x04, 0xFC, 0x00}},
    {"the first move from a position to itself", 32, 1, 5, {0x00, 0x00, 0x04, 0x00, 0x00}},
    {"the first move from a vacant position", 34, 1, 5, {0x00, 0x00, 0x04, 0x04, 0x20}},
    {"from a vacant position into an occupied one", 34, 1, 5, {0x00, 0x00, 0x04, 0x04, 0x00}},
    {"the second move into an occupied position", 35, 2, 6, {0x00, 0x00, 0x08, 0x00, 0x10, 0x43}},
    {"an occupied position, then no edge", 35, 2, 8, {0x00, 0x00, 0x0C, 0x00, 0x10, 0x43, 0x00, 0x30}},
    {"no moves", 33, 1, 3, {0x00, 0x00, 0x00}},
    {"no moves, edition two", 33, 1, 3, {0x00, 0x00, 0x01}},
    {"no moves, edition two, a byte too many", 30, 0, 4, {0x00, 0x00, 0x01, 0x00}},
    {"edition two in the length of edition one", 30, 0, 5, {0x00, 0x00, 0x05, 0x00, 0x10}},
    {"edition one in the length of edition two", 30, 0, 6, {0x00, 0x00, 0x04, 0x00, 0x10, 0x00}},
    {"the spare bits 10 in the length of edition two", 30, 0, 6, {0x00, 0x00, 0x06, 0x00, 0x10, 0x00}},
    {"the spare bits 11 in the length of edition two", 30, 0, 6, {0x00, 0x00, 0x07, 0x00, 0x10, 0x00}},
    {"the spare bits 10 in the length of edition one", 31, 0, 5, {0x00, 0x00, 0x06, 0x00, 0x10}},
    {"the spare bits 11 in the length of edition one", 31, 0, 5, {0x00, 0x00, 0x07, 0x00, 0x10}},
    {"the first of 6 pad bits set", 31, 0, 6, {0x00, 0x00, 0x05, 0x00, 0x10, 0x20}},
    {"the last of 6 pad bits set", 31, 0, 6, {0x00, 0x00, 0x05, 0x00, 0x10, 0x01}},
    {"the first of 4 pad bits set", 31, 0, 8, {0x00, 0x00, 0x09, 0x00, 0x10, 0x03, 0x08, 0x18}},
    {"the last of 4 pad bits set", 31, 0, 8, {0x00, 0x00, 0x09, 0x00, 0x10, 0x03, 0x08, 0x11}},
    {"the first of 2 pad bits set", 31, 0, 10, {0x00, 0x00, 0x0D, 0x00, 0x10, 0x03, 0x08, 0x10, 0x80, 0x06}},
    {"the last of 2 pad bits set", 31, 0, 10, {0x00, 0x00, 0x0D, 0x00, 0x10, 0x03, 0x08, 0x10, 0x80, 0x05}},
    {"three moves of four, edition two", 33, 1, 10, {0x00, 0x00, 0x0D, 0x00, 0x10, 0x03, 0x08, 0x10, 0x80, 0x04}},
    {"rack 1 moves, rack 2 is named", 36, 1, 6, {0x00, 0x00, 0x05, 0x00, 0x10, 0x40}},
    {"rack 64 of 2 is named", 36, 1, 6, {0x00, 0x00, 0x05, 0x00, 0x1F, 0xC0}},
    {"the last move names the other rack", 36, 4, 12,
     {0x00, 0x00, 0x11, 0x00, 0x10, 0x03, 0x08, 0x10, 0x80, 0x04, 0x10, 0xC1}},
    {"no edge, and the other rack", 32, 1, 6, {0x00, 0x00, 0x05, 0x00, 0x30, 0x40}},
    {"no rack there, and rack 1 is named", 34, 1, 6, {0x00, 0x00, 0x05, 0x04, 0x20, 0x00}},
    {"an occupied position, and the other rack", 35, 2, 8, {0x00, 0x00, 0x09, 0x00, 0x10, 0x01, 0x0C, 0x10}},
    {"the other rack, then no edge", 36, 1, 8, {0x00, 0x00, 0x09, 0x00, 0x10, 0x40, 0x0C, 0x00}},
    {"no edge, then the other rack", 32, 1, 8, {0x00, 0x00, 0x09, 0x00, 0x30, 0x03, 0x08, 0x00}},
};

static const struct one_case timetables[] = {
    {"the case book's timetable", 0, 4, 11, {0x00, 0x00, 0x08, 0x02, 0x00, 0x10, 0xC2, 0x02, 0x04, 0x30, 0x80}},
    {"two bytes", 40, 0, 2, {0x00, 0x00}},
    {"a step missing", 40, 0, 3, {0x00, 0x00, 0x04}},
    {"a step past the end", 40, 0, 5, {0x00, 0x00, 0x04, 0x01, 0x00}},
    {"a byte left over", 40, 0, 4, {0x00, 0x00, 0x00, 0x00}},
    {"a spare bit set", 41, 0, 3, {0x00, 0x00, 0x02}},
    {"a pad bit set", 41, 0, 6, {0x00, 0x00, 0x04, 0x01, 0x00, 0x11}},
    {"the first step from a vacant position", 42, 1, 6, {0x00, 0x00, 0x04, 0x01, 0x04, 0x00}},
    {"a wait, then both racks into one position", 42, 2, 8, {0x00, 0x00, 0x08, 0x00, 0x02, 0x00, 0x10, 0xC1}},
    {"no steps", 43, 1, 3, {0x00, 0x00, 0x00}},
};

static void run_plan(const struct one_case *c)
{
    uint64_t answer = wichteab_plan_check(order, sizeof order, c->bytes, c->length);
    uint32_t rest = c->number == 0 ? wichteab_plan_moves(answer) : wichteab_place(answer);
    expect(wichteab_number(answer) == c->number && rest == c->place, c->name);
    if (c->number == 0) {
        expect(wichteab_plan_length(wichteab_plan_edition(c->bytes), rest) == c->length, "wichteab_plan_length");
    }
}

static void run_timetable(const struct one_case *c)
{
    uint64_t answer = wichteab_timetable_check(order, sizeof order, c->bytes, c->length);
    uint32_t rest = c->number == 0 ? wichteab_timetable_moves(answer) : wichteab_place(answer);
    expect(wichteab_number(answer) == c->number && rest == c->place, c->name);
    if (c->number == 0) {
        expect(wichteab_timetable_steps(answer) == 2, "wichteab_timetable_steps");
    }
}

static void run_steps(const struct one_case *c)
{
    uint64_t first = wichteab_timetable_step(c->bytes, c->length, 1);
    uint64_t second = wichteab_timetable_step(c->bytes, c->length, 2);
    expect(wichteab_number(first) == 0 && wichteab_step_offset(first) == 3, "offset of step 1");
    expect(wichteab_step_length(first) == 4, "length of step 1");
    expect(wichteab_number(second) == 0 && wichteab_step_offset(second) == 7, "offset of step 2");
    expect(wichteab_step_length(second) == 4, "length of step 2");
    expect(wichteab_timetable_step(c->bytes, c->length, 0) == WICHTEAB_STEP_NUMBER, "step 0");
    expect(wichteab_timetable_step(c->bytes, c->length, 3) == WICHTEAB_STEP_NUMBER, "step 3");
    expect(wichteab_timetable_step(c->bytes, c->length, UINT64_MAX) == WICHTEAB_STEP_NUMBER, "the last number");
    expect(wichteab_timetable_step(c->bytes, c->length - 1, 0) == WICHTEAB_TIMETABLE_LENGTH, "step 0, cut");
}

int main(void)
{
    static const uint8_t no_position[] = {0x00, 0x00, 0x00};
    size_t i;
    for (i = 0; i < sizeof plans / sizeof plans[0]; i++) {
        run_plan(&plans[i]);
    }
    for (i = 0; i < sizeof timetables / sizeof timetables[0]; i++) {
        run_timetable(&timetables[i]);
    }
    run_steps(&timetables[0]);
    expect(wichteab_plan_check(no_position, 3, no_position, 2) == WICHTEAB_ORDER_POSITIONS, "order before plan");
    expect(wichteab_timetable_check(no_position, 3, no_position, 2) == WICHTEAB_ORDER_POSITIONS,
           "order before timetable");
    return close_tests();
}
