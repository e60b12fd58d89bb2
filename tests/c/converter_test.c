/* The converter called from C: there and back from both editions, buffers below, at and above the length of the other edition, and plans that
   are refused. */
#include <string.h>

#include "expect.h"
#include "wichteab.h"

/* The case book's order: F, rack 1 from 0 to 3, rack 2 from 3 to 0. */
static const uint8_t order[] = {0x08, 0x0A, 0x08, 0x00, 0x10, 0x02, 0x04, 0x20, 0x43, 0x08, 0x30, 0x03, 0x0C, 0x00};

/* The case book's plan, 0>1, 3>2, 2>0, 1>3, in both editions: the racks are 1, 2, 2, 1. */
static const uint8_t one[] = {0x00, 0x00, 0x10, 0x00, 0x10, 0xC2, 0x08, 0x00, 0x43};
static const uint8_t two[] = {0x00, 0x00, 0x11, 0x00, 0x10, 0x03, 0x08, 0x10, 0x80, 0x04, 0x10, 0xC0};

/* The case book's plan converted with a buffer of this length. */
static void convert_with(const uint8_t *plan, size_t plan_length, const uint8_t *other, size_t other_length, size_t length)
{
    uint8_t buffer[16];
    uint64_t answer;
    memset(buffer, FILL, sizeof buffer);
    answer = wichteab_plan_convert(order, sizeof order, plan, plan_length, buffer, length);
    if (length < other_length) {
        expect(answer == WICHTEAB_CONVERTED_BUFFER, "a buffer shorter than the other edition is 38");
        expect(untouched(buffer, 0, sizeof buffer), "and stays as it was");
    } else {
        expect(wichteab_number(answer) == 0 && wichteab_plan_moves(answer) == 4, "the plan's moves");
        expect(memcmp(buffer, other, other_length) == 0, "the same plan in the other edition");
        expect(untouched(buffer, other_length, sizeof buffer), "the bytes behind it stay as they were");
    }
}

/* The refusal, with no buffer and with one that is long enough. */
static void refused_with(const uint8_t *bad, size_t bad_length, uint32_t number, uint32_t place)
{
    uint8_t buffer[16];
    size_t length;
    memset(buffer, FILL, sizeof buffer);
    for (length = 0; length <= sizeof buffer; length += sizeof buffer) {
        uint64_t answer = wichteab_plan_convert(order, sizeof order, bad, bad_length, buffer, length);
        expect(wichteab_number(answer) == number && wichteab_place(answer) == place, "the plan's refusal");
        expect(answer == wichteab_plan_check(order, sizeof order, bad, bad_length), "is the plan checker's");
        expect(untouched(buffer, 0, sizeof buffer), "and leaves the buffer as it was");
    }
}

static void run_refusals(void)
{
    static const uint8_t short_two[] = {0x00, 0x00, 0x05, 0x00, 0x10};                     /* in the length of edition one */
    static const uint8_t no_edition[] = {0x00, 0x00, 0x06, 0x00, 0x10};                    /* the spare bits 10 */
    static const uint8_t pad[] = {0x00, 0x00, 0x05, 0x00, 0x10, 0x01};                     /* a pad bit set */
    static const uint8_t no_edge[] = {0x00, 0x00, 0x08, 0x00, 0x10, 0xC0};                 /* 0>1, 3>0 */
    static const uint8_t no_rack[] = {0x00, 0x00, 0x08, 0x00, 0x10, 0x02};                 /* 0>1, 0>2 */
    static const uint8_t occupied[] = {0x00, 0x00, 0x08, 0x00, 0x10, 0x43};                /* 0>1, 1>3 */
    static const uint8_t other_rack[] = {0x00, 0x00, 0x09, 0x00, 0x10, 0x03, 0x08, 0x00};  /* 0>1 rack 1, 3>2 rack 1 */
    static const uint8_t not_there[] = {0x00, 0x00, 0x09, 0x00, 0x10, 0x03, 0x08, 0x10};   /* 0>1 rack 1, 3>2 rack 2 */
    uint8_t buffer[16];
    memset(buffer, FILL, sizeof buffer);
    expect(wichteab_plan_convert(order, 2, one, sizeof one, buffer, 0) == WICHTEAB_ORDER_LENGTH, "an order cut");
    expect(untouched(buffer, 0, sizeof buffer), "leaves the buffer as it was");
    refused_with(one, 2, WICHTEAB_PLAN_LENGTH, 0);
    refused_with(short_two, sizeof short_two, WICHTEAB_PLAN_LENGTH, 0);
    refused_with(no_edition, sizeof no_edition, WICHTEAB_PLAN_PADDING, 0);
    refused_with(pad, sizeof pad, WICHTEAB_PLAN_PADDING, 0);
    refused_with(no_edge, sizeof no_edge, WICHTEAB_PLAN_MOVE, 2);
    refused_with(not_there, sizeof not_there, WICHTEAB_PLAN_GOAL, 1);
    refused_with(no_rack, sizeof no_rack, WICHTEAB_PLAN_NO_RACK, 2);
    refused_with(occupied, sizeof occupied, WICHTEAB_PLAN_OCCUPIED, 2);
    refused_with(other_rack, sizeof other_rack, WICHTEAB_PLAN_RACK, 2);
}

/* A record written from its fields, most significant bit first. */
struct record {
    uint8_t bytes[128];
    size_t bits;
};

static void put(struct record *record, unsigned value, unsigned width)
{
    while (width-- > 0) {
        record->bytes[record->bits / 8] |= (uint8_t)((value >> width & 1) << (7 - record->bits % 8));
        record->bits++;
    }
}

static size_t length_of(const struct record *record)
{
    return (record->bits + 7) / 8;
}

/* Converted into a buffer of just its length, and back into one of just the plan's. */
static void there_and_back(const struct record *its_order, const struct record *plan, const struct record *other, uint32_t moves)
{
    uint8_t there[128], back[128];
    size_t length = length_of(other);
    uint64_t answer;
    memset(there, FILL, sizeof there);
    memset(back, FILL, sizeof back);
    expect(wichteab_converted_length(plan->bytes, length_of(plan)) == length, "wichteab_converted_length");
    answer = wichteab_plan_convert(its_order->bytes, length_of(its_order), plan->bytes, length_of(plan), there, length - 1);
    expect(answer == WICHTEAB_CONVERTED_BUFFER && untouched(there, 0, sizeof there), "one byte less is 38");
    answer = wichteab_plan_convert(its_order->bytes, length_of(its_order), plan->bytes, length_of(plan), there, length);
    expect(answer == (uint64_t)moves << 8 && memcmp(there, other->bytes, length) == 0, "there");
    expect(untouched(there, length, sizeof there), "and nothing behind it");
    answer = wichteab_plan_convert(its_order->bytes, length_of(its_order), there, length, back, length_of(plan));
    expect(answer == (uint64_t)moves << 8 && memcmp(back, plan->bytes, length_of(plan)) == 0, "and back");
    expect(untouched(back, length_of(plan), sizeof back), "and nothing behind it");
}

/* 64 positions and one edge, 62-63; racks 1 to 63 stand at 0 to 62, and each has its start for its goal but the last, whose goal is this one. */
static void put_order(struct record *record, unsigned goal)
{
    unsigned rack;
    memset(record, 0, sizeof *record);
    put(record, 64, 7);
    put(record, 1, 8);
    put(record, 63, 7);
    put(record, 0, 2);
    put(record, 62, 6);
    put(record, 63, 6);
    for (rack = 0; rack < 63; rack++) {
        put(record, rack, 6);
    }
    for (rack = 0; rack < 62; rack++) {
        put(record, rack, 6);
    }
    put(record, goal, 6);
}

/* Rack 63, the highest that there can be beside a vacancy, goes to and fro between 62 and 63 so many times. */
static void put_plan(struct record *record, unsigned edition, unsigned moves)
{
    unsigned number;
    memset(record, 0, sizeof *record);
    put(record, moves, 22);
    put(record, edition - 1, 2);
    for (number = 0; number < moves; number++) {
        put(record, 62 + number % 2, 6);
        put(record, 63 - number % 2, 6);
        if (edition == 2) {
            put(record, 63 - 1, 6);
        }
    }
}

/* Plans of each pad that there is, from both editions. */
static void run_pads(void)
{
    struct record its_order, first, second;
    unsigned moves;
    for (moves = 0; moves <= 33; moves++) {
        put_order(&its_order, 62 + moves % 2);
        put_plan(&first, 1, moves);
        put_plan(&second, 2, moves);
        there_and_back(&its_order, &first, &second, moves);
        there_and_back(&its_order, &second, &first, moves);
    }
}

/* What the planner writes, made edition one and edition two again. */
static void run_planned(void)
{
    static uint8_t plan[18 * 4 * 4 * 4 + 3], there[sizeof plan], back[sizeof plan];
    uint64_t planned = wichteab_plan_make(order, sizeof order, plan, sizeof plan);
    uint32_t moves = wichteab_plan_moves(planned);
    size_t length = wichteab_plan_length(2, moves), other = wichteab_plan_length(1, moves);
    expect(wichteab_number(planned) == 0 && wichteab_converted_length(plan, length) == other, "planned");
    expect(wichteab_plan_convert(order, sizeof order, plan, length, there, other) == planned, "converted");
    expect(wichteab_plan_edition(there) == 1, "to edition one");
    expect(wichteab_plan_check(order, sizeof order, there, other) == planned, "which the plan checker accepts");
    expect(wichteab_plan_convert(order, sizeof order, there, other, back, length) == planned, "and back");
    expect(memcmp(back, plan, length) == 0, "to the plan that was made");
}

int main(void)
{
    size_t length;
    for (length = 0; length <= 16; length++) {
        convert_with(one, sizeof one, two, sizeof two, length);
        convert_with(two, sizeof two, one, sizeof one, length);
    }
    run_refusals();
    run_pads();
    run_planned();
    return close_tests();
}
