/* The floor check and the planner called from C: input and number one line each, and buffers below, at and above the limit. */
#include <string.h>

#include "expect.h"
#include "wichteab.h"

struct floor_case {
    const char *name;
    uint32_t number;
    size_t length;
    uint8_t bytes[32];
};

/* F is the case book's floor: four positions, edges 0-1, 0-2, 1-2, 1-3, 2-3. */
static const struct floor_case cases[] = {
    {"F with two racks", 0, 14, {0x08, 0x0A, 0x08, 0x00, 0x10, 0x02, 0x04, 0x20, 0x43, 0x08, 0x30, 0x03, 0x0C, 0x00}},
    {"F, each start its goal", 0, 14,
     {0x08, 0x0A, 0x08, 0x00, 0x10, 0x02, 0x04, 0x20, 0x43, 0x08, 0x30, 0x03, 0x00, 0x30}},
    {"F with no rack", 0, 11, {0x08, 0x0A, 0x00, 0x00, 0x10, 0x02, 0x04, 0x20, 0x43, 0x08, 0x30}},
    {"F, cut", 10, 10, {0x08, 0x0A, 0x00, 0x00, 0x10, 0x02, 0x04, 0x20, 0x43, 0x08}},
    {"n = 65", 11, 3, {0x82, 0x00, 0x00}},
    {"F with a spare bit set", 12, 11, {0x08, 0x0A, 0x01, 0x00, 0x10, 0x02, 0x04, 0x20, 0x43, 0x08, 0x30}},
    {"an edge not lower first", 13, 5, {0x08, 0x02, 0x00, 0x04, 0x00}},
    {"F with a start shared", 14, 14,
     {0x08, 0x0A, 0x08, 0x00, 0x10, 0x02, 0x04, 0x20, 0x43, 0x08, 0x30, 0x00, 0x04, 0x20}},
    {"F with three racks", 20, 15,
     {0x08, 0x0A, 0x0C, 0x00, 0x10, 0x02, 0x04, 0x20, 0x43, 0x08, 0x30, 0x01, 0x08, 0x10, 0x80}},
    {"a path of three with two racks", 20, 9, {0x06, 0x04, 0x08, 0x00, 0x10, 0x42, 0x00, 0x10, 0x40}},
    {"a path of four with one rack", 21, 9, {0x08, 0x06, 0x04, 0x00, 0x10, 0x42, 0x08, 0x30, 0x01}},
    {"two positions and an edge", 21, 5, {0x04, 0x02, 0x00, 0x00, 0x10}},
    {"two triangles that share a position", 21, 14,
     {0x0A, 0x0C, 0x04, 0x00, 0x10, 0x02, 0x04, 0x20, 0x83, 0x08, 0x40, 0xC4, 0x00, 0x40}},
    {"two triangles apart", 21, 14,
     {0x0C, 0x0C, 0x04, 0x00, 0x10, 0x02, 0x04, 0x20, 0xC4, 0x0C, 0x51, 0x05, 0x00, 0x50}},
    {"a ring of three with one rack", 0, 9, {0x06, 0x06, 0x04, 0x00, 0x10, 0x02, 0x04, 0x20, 0x01}},
    {"a ring of four with one rack", 0, 11, {0x08, 0x08, 0x04, 0x00, 0x10, 0x03, 0x04, 0x20, 0x83, 0x00, 0x10}},
    {"a ring of four, its racks the other way round", 24, 14,
     {0x08, 0x08, 0x0C, 0x00, 0x10, 0x03, 0x04, 0x20, 0x83, 0x00, 0x10, 0x82, 0x04, 0x00}},
    {"a full ring of three", 20, 12, {0x06, 0x06, 0x0C, 0x00, 0x10, 0x02, 0x04, 0x20, 0x01, 0x08, 0x00, 0x42}},
    {"a position in the middle of a ring of five, its rack at its goal", 26, 20,
     {0x0C, 0x14, 0x04, 0x00, 0x10, 0x02, 0x00, 0x30, 0x04, 0x00, 0x50, 0x42, 0x04, 0x50, 0x83, 0x0C, 0x41, 0x05, 0x00, 0x00}},
    {"the same with five racks", 20, 26,
     {0x0C, 0x14, 0x14, 0x00, 0x10, 0x02, 0x00, 0x30, 0x04, 0x00, 0x50, 0x42, 0x04, 0x50, 0x83, 0x0C, 0x41, 0x05, 0x00, 0x10,
      0x83, 0x10, 0x00, 0x42, 0x0C, 0x40}},
    {"the same without the ring", 21, 12, {0x0C, 0x0A, 0x04, 0x00, 0x10, 0x02, 0x00, 0x30, 0x04, 0x00, 0x50, 0x01}},
};

/* What 23 asks for n = 4, and some bytes more. */
#define ENOUGH 1155
static uint8_t buffer[ENOUGH + 9];

static uint64_t make(const struct floor_case *c, size_t length)
{
    memset(buffer, FILL, sizeof buffer);
    return wichteab_plan_make(c->bytes, c->length, buffer, length);
}

/* The plan at the front of the buffer: of edition two, accepted with as many moves as were answered, and the rest of the buffer as it was. */
static void judge_plan(const struct floor_case *c, uint64_t answer)
{
    uint32_t moves = wichteab_plan_moves(answer);
    size_t end = wichteab_plan_length(2, moves);
    expect(wichteab_number(answer) == 0 && moves <= 8 * 4 * 4 * 4, c->name);
    expect(wichteab_plan_edition(buffer) == 2, "the plan is of edition two");
    expect(end <= ENOUGH && wichteab_plan_check(c->bytes, c->length, buffer, end) == answer, "the plan checker accepts it");
    expect(untouched(buffer, end, sizeof buffer), "the bytes behind it stay as they were");
}

static void run(const struct floor_case *c)
{
    uint64_t answer = wichteab_floor_check(c->bytes, c->length);
    expect(answer == c->number, c->name);
    answer = make(c, ENOUGH);
    if (c->number == 0) {
        judge_plan(c, answer);
    } else {
        expect(answer == c->number && untouched(buffer, 0, sizeof buffer), "the planner refuses it too");
    }
}

/* Case 6: 1,154 bytes are 23, 1,155 are enough; and so is more. */
static void run_buffers(const struct floor_case *c)
{
    static const size_t lengths[] = {0, 1, 3, 771, ENOUGH - 1, ENOUGH, ENOUGH + 1, ENOUGH + 9};
    size_t i;
    expect(wichteab_plan_buffer_length(wichteab_order_positions(c->bytes)) == ENOUGH, "wichteab_plan_buffer_length");
    for (i = 0; i < sizeof lengths / sizeof lengths[0]; i++) {
        uint64_t answer = make(c, lengths[i]);
        if (lengths[i] < ENOUGH) {
            expect(answer == WICHTEAB_PLAN_BUFFER && untouched(buffer, 0, sizeof buffer), "a buffer too short is 23");
        } else {
            judge_plan(c, answer);
        }
    }
}

/* The three calls in turn: the timetable made of the plan is accepted, with the maker's steps and the planner's moves. */
static void run_delivery(const struct floor_case *c)
{
    uint8_t timetable[3 * 8 * 4 * 4 * 4 + 3];
    uint64_t planned = make(c, ENOUGH), made, checked;
    uint32_t moves = wichteab_plan_moves(planned);
    size_t end;
    made = wichteab_timetable_make(c->bytes, c->length, buffer, wichteab_plan_length(2, moves), timetable,
                                   wichteab_timetable_buffer_length(moves));
    end = (size_t)wichteab_timetable_length(timetable, wichteab_timetable_buffer_length(moves));
    checked = wichteab_timetable_check(c->bytes, c->length, timetable, end);
    expect(wichteab_number(made) == 0 && wichteab_number(checked) == 0, "planned, made and checked");
    expect(wichteab_timetable_steps(checked) == wichteab_timetable_steps(made), "the maker's steps");
    expect(wichteab_timetable_moves(checked) == moves, "the planner's moves");
}

int main(void)
{
    size_t i;
    for (i = 0; i < sizeof cases / sizeof cases[0]; i++) {
        run(&cases[i]);
    }
    run_buffers(&cases[0]);
    run_delivery(&cases[0]);
    expect(wichteab_plan_moves(make(&cases[0], ENOUGH)) > 0, "F with two racks has to move");
    expect(make(&cases[1], ENOUGH) == 0 && buffer[0] == 0 && buffer[1] == 0 && buffer[2] == 1, "no moves where each start is its goal");
    return close_tests();
}
