/* The shortener called from C: what cancels and what does not, in both editions, with second buffers below, at and above the plan's length,
   and plans that are refused. */
#include <string.h>

#include "expect.h"
#include "wichteab.h"

/* n = 4, edges 0-1, 0-2, 1-2, 1-3, 2-3, rack 1 from 0 to 3, rack 2 from 3 to 0 */
static const uint8_t order[] = {0x08, 0x0A, 0x08, 0x00, 0x10, 0x02, 0x04, 0x20, 0x43, 0x08, 0x30, 0x03, 0x0C, 0x00};

/* 0>1, 1>0, 0>1, 3>2, 2>0, 1>3, and the same without the first two */
static const uint8_t longer[] = {0x00, 0x00, 0x18, 0x00, 0x10, 0x40, 0x00, 0x10, 0xC2, 0x08, 0x00, 0x43};
static const uint8_t shorter[] = {0x00, 0x00, 0x10, 0x00, 0x10, 0xC2, 0x08, 0x00, 0x43};

/* The same two in edition two: the racks are 1, 1, 1, 2, 2, 1. */
static const uint8_t longer_two[] = {0x00, 0x00, 0x19, 0x00, 0x10, 0x01, 0x00, 0x00, 0x01, 0x00, 0x30, 0x81, 0x08, 0x00, 0x41, 0x0C, 0x00};
static const uint8_t shorter_two[] = {0x00, 0x00, 0x11, 0x00, 0x10, 0x03, 0x08, 0x10, 0x80, 0x04, 0x10, 0xC0};

/* The same floor and starts, which are the goals; 0>1, 3>2, 1>0, 2>3: two interleaved pairs that cancel. */
static const uint8_t still[] = {0x08, 0x0A, 0x08, 0x00, 0x10, 0x02, 0x04, 0x20, 0x43, 0x08, 0x30, 0x03, 0x00, 0x30};
static const uint8_t both[] = {0x00, 0x00, 0x10, 0x00, 0x10, 0xC2, 0x04, 0x00, 0x83};
static const uint8_t both_two[] = {0x00, 0x00, 0x11, 0x00, 0x10, 0x03, 0x08, 0x10, 0x40, 0x00, 0x20, 0xC1};

/* Six moves of which four are left: the second buffer is measured by the six. */
static void shorten_with(const uint8_t *plan, size_t plan_length, const uint8_t *left, size_t left_length, size_t length)
{
    uint8_t buffer[20];
    uint64_t answer;
    memset(buffer, FILL, sizeof buffer);
    answer = wichteab_plan_shorten(order, sizeof order, plan, plan_length, buffer, length);
    if (length < plan_length) {
        expect(answer == WICHTEAB_SECOND_BUFFER, "a buffer shorter than the plan given is 37");
        expect(untouched(buffer, 0, sizeof buffer), "and stays as it was");
    } else {
        expect(wichteab_number(answer) == 0 && wichteab_plan_moves(answer) == 4, "four moves are left");
        expect(wichteab_plan_length(wichteab_plan_edition(plan), 4) == left_length, "their length");
        expect(memcmp(buffer, left, left_length) == 0, "the case book's plan, in the edition of the plan given");
        expect(untouched(buffer, left_length, sizeof buffer), "the bytes behind it stay as they were");
    }
}

/* A plan without a cancelling pair is written as it is. */
static void nothing_cancels(const uint8_t *plan, size_t plan_length)
{
    uint8_t buffer[20];
    uint64_t answer;
    memset(buffer, FILL, sizeof buffer);
    answer = wichteab_plan_shorten(order, sizeof order, plan, plan_length, buffer, plan_length);
    expect(answer == 4 << 8, "nothing cancels");
    expect(memcmp(buffer, plan, plan_length) == 0, "and the plan is the same");
    expect(untouched(buffer, plan_length, sizeof buffer), "the bytes behind it stay as they were");
}

/* Of a plan whose moves all cancel, the three bytes of its edition without moves are left. */
static void everything_cancels(const uint8_t *plan, size_t plan_length, uint8_t third)
{
    uint8_t buffer[20];
    uint64_t answer;
    memset(buffer, FILL, sizeof buffer);
    answer = wichteab_plan_shorten(still, sizeof still, plan, plan_length, buffer, plan_length);
    expect(answer == 0, "everything cancels");
    expect(buffer[0] == 0 && buffer[1] == 0 && buffer[2] == third, "and three bytes are written");
    expect(untouched(buffer, 3, sizeof buffer), "the bytes behind them stay as they were");
}

/* The plan's refusal is passed up, with a second buffer that is too short and with one that is not. */
static void refused_with(const uint8_t *bad, size_t bad_length, uint32_t number, uint32_t place)
{
    uint8_t buffer[16];
    size_t length;
    memset(buffer, FILL, sizeof buffer);
    for (length = 0; length <= sizeof buffer; length += sizeof buffer) {
        uint64_t answer = wichteab_plan_shorten(order, sizeof order, bad, bad_length, buffer, length);
        expect(wichteab_number(answer) == number && wichteab_place(answer) == place, "the plan's refusal");
        expect(untouched(buffer, 0, sizeof buffer), "leaves the buffer as it was");
    }
}

int main(void)
{
    static const uint8_t no_edge[] = {0x00, 0x00, 0x08, 0x00, 0x10, 0xC0};  /* 0>1, 3>0 */
    static const uint8_t no_rack[] = {0x00, 0x00, 0x08, 0x00, 0x10, 0x02};  /* 0>1, 0>2 */
    static const uint8_t occupied[] = {0x00, 0x00, 0x08, 0x00, 0x10, 0x43}; /* 0>1, 1>3 */
    static const uint8_t other_rack[] = {0x00, 0x00, 0x09, 0x00, 0x10, 0x03, 0x08, 0x00}; /* 0>1 rack 1, 3>2 rack 1 */
    uint8_t buffer[16];
    uint64_t answer;
    size_t length;
    for (length = 0; length <= 20; length++) {
        shorten_with(longer, sizeof longer, shorter, sizeof shorter, length);
        shorten_with(longer_two, sizeof longer_two, shorter_two, sizeof shorter_two, length);
    }
    nothing_cancels(shorter, sizeof shorter);
    nothing_cancels(shorter_two, sizeof shorter_two);
    everything_cancels(both, sizeof both, 0x00);
    everything_cancels(both_two, sizeof both_two, 0x01);
    memset(buffer, FILL, sizeof buffer);
    answer = wichteab_plan_shorten(order, 2, longer, sizeof longer, buffer, 0);
    expect(answer == WICHTEAB_ORDER_LENGTH, "an order cut");
    expect(untouched(buffer, 0, sizeof buffer), "leaves the buffer as it was");
    refused_with(longer, 3, WICHTEAB_PLAN_LENGTH, 0);
    refused_with(no_edge, sizeof no_edge, WICHTEAB_PLAN_MOVE, 2);
    refused_with(both, sizeof both, WICHTEAB_PLAN_GOAL, 1);
    refused_with(no_rack, sizeof no_rack, WICHTEAB_PLAN_NO_RACK, 2);
    refused_with(occupied, sizeof occupied, WICHTEAB_PLAN_OCCUPIED, 2);
    refused_with(other_rack, sizeof other_rack, WICHTEAB_PLAN_RACK, 2);
    return close_tests();
}
