/* The dearest carry called from C: start, goal, moves and plan, ties, buffers below, at and above the length that is asked for, and orders that
   are refused. */
#include <string.h>

#include "expect.h"
#include "wichteab.h"

/* A record written from its fields, most significant bit first. */
struct record {
    uint8_t bytes[WICHTEAB_ORDER_LONGEST];
    size_t bits;
};

static void put(struct record *record, unsigned value, unsigned width)
{
    while (width-- > 0) {
        record->bytes[record->bits / 8] |= (uint8_t)((value >> width & 1) << (7 - record->bits % 8));
        record->bits++;
    }
}

static size_t length_of(const struct record *record)
{
    return (record->bits + 7) / 8;
}

static void begin_order(struct record *record, unsigned positions, unsigned edges, unsigned racks)
{
    memset(record, 0, sizeof *record);
    put(record, positions, 7);
    put(record, edges, 8);
    put(record, racks, 7);
    put(record, 0, 2);
}

static void put_pair(struct record *record, unsigned first, unsigned second)
{
    put(record, first, 6);
    put(record, second, 6);
}

/* The floor's edges and the one rack's start and goal. */
static uint64_t check_plan(const struct record *floor, unsigned edges, uint64_t answer, const uint8_t *plan)
{
    struct record one;
    unsigned bit;
    begin_order(&one, wichteab_order_positions(floor->bytes), edges, 1);
    for (bit = 24; bit < 24 + 12 * edges; bit++) {
        put(&one, floor->bytes[bit / 8] >> (7 - bit % 8) & 1u, 1);
    }
    put_pair(&one, wichteab_carry_start(answer), wichteab_carry_goal(answer));
    return wichteab_plan_check(one.bytes, length_of(&one), plan, wichteab_plan_length(2, wichteab_carry_moves(answer)));
}

/* The answer is start, goal and moves, and the plan enters these positions; every length of the buffer up to one byte more is tried. */
static void expect_carry(const struct record *floor, unsigned edges, const uint8_t *entered, uint32_t start, uint32_t goal, uint32_t moves,
                         const char *name)
{
    size_t enough = wichteab_carry_buffer_length(wichteab_order_positions(floor->bytes)), length;
    for (length = 0; length <= enough + 1; length++) {
        uint8_t buffer[256];
        uint64_t answer;
        uint32_t number, left = start;
        memset(buffer, FILL, sizeof buffer);
        answer = wichteab_dearest_carry(floor->bytes, length_of(floor), buffer, length);
        if (length < enough) {
            expect(answer == WICHTEAB_CARRY_BUFFER && untouched(buffer, 0, sizeof buffer), "a shorter buffer is 28");
            continue;
        }
        expect(wichteab_number(answer) == 0 && wichteab_carry_start(answer) == start, name);
        expect(wichteab_carry_goal(answer) == goal && wichteab_carry_moves(answer) == moves, name);
        expect(wichteab_plan_edition(buffer) == 2, "the plan is of edition two");
        expect(untouched(buffer, wichteab_plan_length(2, moves), sizeof buffer), "the bytes behind it stay as they were");
        for (number = 1; number <= moves; number++) {
            struct wichteab_move move = wichteab_plan_move(buffer, number);
            expect(move.left == left && move.entered == entered[number - 1], name);
            expect(wichteab_plan_rack(buffer, number) == 1, "the one rack is rack 1");
            left = move.entered;
        }
        expect(left == goal, "the plan ends at the goal");
        expect(check_plan(floor, edges, answer, buffer) == (uint64_t)moves << 8, "the plan checker accepts it");
    }
}

/* Floors of one and two positions, with a rack and without. */
static void run_small(void)
{
    static const uint8_t to_one[] = {1};
    static const uint8_t none[] = {0x00, 0x00, 0x01};
    struct record floor;
    uint8_t buffer[3];
    begin_order(&floor, 1, 0, 0);
    expect_carry(&floor, 0, none, 0, 0, 0, "one position: 0 to 0, no moves");
    expect(wichteab_dearest_carry(floor.bytes, length_of(&floor), buffer, 3) == 0, "which is the answer 0");
    expect(memcmp(buffer, none, 3) == 0, "and a plan of no moves");
    begin_order(&floor, 1, 0, 1);
    put_pair(&floor, 0, 0);
    expect_carry(&floor, 0, none, 0, 0, 0, "one position with a rack on it");
    begin_order(&floor, 2, 1, 0);
    put_pair(&floor, 0, 1);
    expect_carry(&floor, 1, to_one, 0, 1, 1, "two positions");
}

/* Two rows of three: of the two pairs of opposite corners the lower start; of the three shortest plans the first. */
static void run_ties(void)
{
    static const uint8_t edges[][2] = {{0, 1}, {0, 3}, {1, 2}, {1, 4}, {2, 5}, {3, 4}, {4, 5}};
    static const uint8_t entered[] = {1, 2, 5};
    /* a ring of five, 0-2-4-1-3-0: from 0 both 1 and 4 are two moves away, and 1 only by 3 */
    static const uint8_t ring[][2] = {{0, 2}, {0, 3}, {1, 3}, {1, 4}, {2, 4}};
    static const uint8_t round[] = {3, 1};
    struct record floor;
    size_t i;
    begin_order(&floor, 6, 7, 0);
    for (i = 0; i < 7; i++) {
        put_pair(&floor, edges[i][0], edges[i][1]);
    }
    expect_carry(&floor, 7, entered, 0, 5, 3, "two rows of three");
    begin_order(&floor, 5, 5, 0);
    for (i = 0; i < 5; i++) {
        put_pair(&floor, ring[i][0], ring[i][1]);
    }
    expect_carry(&floor, 5, round, 0, 1, 2, "a ring of five");
}

/* A path of 64 with a rack on each position, and a star of 64, whose plan has two moves while the buffer is measured by 63. */
static void run_large(void)
{
    static const uint8_t two[] = {0, 2};
    uint8_t entered[63];
    struct record floor;
    unsigned i;
    begin_order(&floor, 64, 63, 64);
    for (i = 0; i < 63; i++) {
        put_pair(&floor, i, i + 1);
        entered[i] = (uint8_t)(i + 1);
    }
    for (i = 0; i < 128; i++) {
        put(&floor, i % 64, 6);
    }
    expect_carry(&floor, 63, entered, 0, 63, 63, "a path of 64");
    begin_order(&floor, 64, 63, 0);
    for (i = 1; i < 64; i++) {
        put_pair(&floor, 0, i);
    }
    expect(wichteab_carry_buffer_length(64) == 145, "a buffer for 64 positions");
    expect_carry(&floor, 63, two, 1, 2, 2, "a star of 64");
}

/* 10 to 14, then 27, then 28. */
static void run_refusals(void)
{
    uint8_t buffer[16];
    struct record floor;
    memset(buffer, FILL, sizeof buffer);
    begin_order(&floor, 3, 1, 0);
    put_pair(&floor, 0, 1);
    expect(wichteab_dearest_carry(floor.bytes, 2, buffer, sizeof buffer) == WICHTEAB_ORDER_LENGTH, "an order cut");
    expect(wichteab_dearest_carry(floor.bytes, length_of(&floor), buffer, sizeof buffer) == WICHTEAB_FLOOR_NOT_CONNECTED, "not connected");
    expect(wichteab_dearest_carry(floor.bytes, length_of(&floor), buffer, 0) == WICHTEAB_FLOOR_NOT_CONNECTED, "27 before 28");
    begin_order(&floor, 3, 0, 2);
    put_pair(&floor, 1, 1);
    put_pair(&floor, 0, 2);
    expect(wichteab_dearest_carry(floor.bytes, length_of(&floor), buffer, 0) == WICHTEAB_ORDER_RACK, "14 before 27");
    begin_order(&floor, 0, 0, 0);
    expect(wichteab_carry_buffer_length(wichteab_order_positions(floor.bytes)) == 3, "a buffer for no position");
    expect(wichteab_dearest_carry(floor.bytes, length_of(&floor), buffer, 0) == WICHTEAB_ORDER_POSITIONS, "no position");
    expect(untouched(buffer, 0, sizeof buffer), "a refusal leaves the buffer as it was");
}

int main(void)
{
    run_small();
    run_ties();
    run_large();
    run_refusals();
    return close_tests();
}
