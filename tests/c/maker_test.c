/* The timetable maker called from C: the case book's plan in both editions, with buffers below, at and above the limit, and plans that are
   refused. */
#include <string.h>

#include "expect.h"
#include "wichteab.h"

static const uint8_t order[] = {0x08, 0x0A, 0x08, 0x00, 0x10, 0x02, 0x04, 0x20, 0x43, 0x08, 0x30, 0x03, 0x0C, 0x00};
static const uint8_t plan[] = {0x00, 0x00, 0x10, 0x00, 0x10, 0xC2, 0x08, 0x00, 0x43};
static const uint8_t plan_two[] = {0x00, 0x00, 0x11, 0x00, 0x10, 0x03, 0x08, 0x10, 0x80, 0x04, 0x10, 0xC0}; /* in edition two */
static const uint8_t timetable[] = {0x00, 0x00, 0x08, 0x02, 0x00, 0x10, 0xC2, 0x02, 0x04, 0x30, 0x80};

static void make_with(const uint8_t *given, size_t given_length, size_t length)
{
    uint8_t buffer[20];
    uint64_t answer;
    memset(buffer, FILL, sizeof buffer);
    answer = wichteab_timetable_make(order, sizeof order, given, given_length, buffer, length);
    if (length < wichteab_timetable_buffer_length(4)) {
        expect(answer == WICHTEAB_TIMETABLE_BUFFER, "a buffer too short is 44");
        expect(untouched(buffer, 0, sizeof buffer), "and stays as it was");
    } else {
        size_t end = (size_t)wichteab_timetable_length(buffer, length);
        expect(wichteab_number(answer) == 0 && wichteab_timetable_steps(answer) == 2, "two steps");
        expect(end == sizeof timetable && memcmp(buffer, timetable, end) == 0, "the case book's timetable");
        expect(untouched(buffer, end, sizeof buffer), "the bytes behind it stay as they were");
    }
}

/* The plan's refusal is passed up, with a buffer that is too short and with one that is not. */
static void refused_with(const uint8_t *bad, size_t bad_length, uint32_t number, uint32_t place)
{
    uint8_t buffer[20];
    size_t length;
    memset(buffer, FILL, sizeof buffer);
    for (length = 0; length <= sizeof buffer; length += sizeof buffer) {
        uint64_t answer = wichteab_timetable_make(order, sizeof order, bad, bad_length, buffer, length);
        expect(wichteab_number(answer) == number && wichteab_place(answer) == place, "the plan's refusal");
        expect(untouched(buffer, 0, sizeof buffer), "leaves the buffer as it was");
    }
}

int main(void)
{
    static const uint8_t no_edge[] = {0x00, 0x00, 0x08, 0x00, 0x10, 0xC0};  /* 0>1, 3>0 */
    static const uint8_t no_rack[] = {0x00, 0x00, 0x08, 0x00, 0x10, 0x02};  /* 0>1, 0>2 */
    static const uint8_t occupied[] = {0x00, 0x00, 0x08, 0x00, 0x10, 0x43}; /* 0>1, 1>3 */
    static const uint8_t other_rack[] = {0x00, 0x00, 0x09, 0x00, 0x10, 0x03, 0x08, 0x00}; /* 0>1 rack 1, 3>2 rack 1 */
    size_t length;
    uint8_t buffer[4] = {FILL, FILL, FILL, FILL};
    for (length = 0; length <= 20; length++) {
        make_with(plan, sizeof plan, length);
        make_with(plan_two, sizeof plan_two, length);
    }
    expect(wichteab_timetable_make(order, sizeof order, plan, 3, buffer, 4) == WICHTEAB_PLAN_LENGTH, "a plan cut");
    expect(untouched(buffer, 0, 4), "leaves the buffer as it was");
    refused_with(no_edge, sizeof no_edge, WICHTEAB_PLAN_MOVE, 2);
    refused_with(no_rack, sizeof no_rack, WICHTEAB_PLAN_NO_RACK, 2);
    refused_with(occupied, sizeof occupied, WICHTEAB_PLAN_OCCUPIED, 2);
    refused_with(other_rack, sizeof other_rack, WICHTEAB_PLAN_RACK, 2);
    return close_tests();
}
