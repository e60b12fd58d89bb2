/* Where a record ends, called from C: each record alone, followed by other bytes, and cut at every byte. */
#include <stdlib.h>
#include <string.h>

#include "expect.h"
#include "wichteab.h"

struct length_case {
    const char *name;
    size_t expected; /* the record's length, or 0 where the bytes end before it */
    size_t length;
    uint8_t bytes[16];
};

static const struct length_case orders[] = {
    {"the case book's order", 14, 14,
     {0x08, 0x0A, 0x08, 0x00, 0x10, 0x02, 0x04, 0x20, 0x43, 0x08, 0x30, 0x03, 0x0C, 0x00}},
    {"no edge, no rack", 3, 3, {0x02, 0x00, 0x00}},
    {"one rack, and a pad", 5, 5, {0x02, 0x00, 0x04, 0x00, 0x00}},
    {"followed by a plan", 5, 8, {0x02, 0x00, 0x04, 0x00, 0x00, 0x00, 0x00, 0x00}},
    {"n = 0, spare bits set: not judged", 3, 3, {0x00, 0x00, 0x03}},
    {"an edge not lower first, pad bits set: not judged", 5, 5, {0x08, 0x02, 0x00, 0x04, 0x0F}},
    {"the longest order, cut", 0, 16, {0xFF, 0xFF, 0xFF}},
    {"no bytes", 0, 0, {0}},
    {"two bytes", 0, 2, {0x02, 0x00}},
};

static const struct length_case timetables[] = {
    {"the case book's timetable", 11, 11, {0x00, 0x00, 0x08, 0x02, 0x00, 0x10, 0xC2, 0x02, 0x04, 0x30, 0x80}},
    {"no steps", 3, 3, {0x00, 0x00, 0x00}},
    {"three steps without moves", 6, 6, {0x00, 0x00, 0x0C, 0x00, 0x00, 0x00}},
    {"followed by another", 6, 9, {0x00, 0x00, 0x04, 0x01, 0x00, 0x10, 0x00, 0x00, 0x00}},
    {"spare and pad bits set: not judged", 6, 6, {0x00, 0x00, 0x07, 0x01, 0x00, 0x1F}},
    {"a step past the end", 0, 5, {0x00, 0x00, 0x04, 0x01, 0x00}},
    {"a step missing", 0, 6, {0x00, 0x00, 0x08, 0x01, 0x00, 0x10}},
    {"the most steps, cut", 0, 16, {0xFF, 0xFF, 0xFC}},
    {"no bytes", 0, 0, {0}},
    {"two bytes", 0, 2, {0x00, 0x00}},
};

/* A copy of exactly this length, so that a byte read behind it is found. */
static uint64_t on_copy(uint64_t (*measure)(const uint8_t *, size_t), const uint8_t *bytes, size_t length)
{
    uint8_t *copy = (uint8_t *)malloc(length > 0 ? length : 1);
    uint64_t result;
    if (copy == NULL) {
        abort();
    }
    memcpy(copy, bytes, length);
    result = measure(copy, length);
    free(copy);
    return result;
}

/* The length expected, and 0 for every shorter string; what follows the record makes no difference. */
static void run(uint64_t (*measure)(const uint8_t *, size_t), const struct length_case *c)
{
    size_t cut;
    expect(on_copy(measure, c->bytes, c->length) == c->expected, c->name);
    for (cut = 0; cut < c->expected; cut++) {
        expect(on_copy(measure, c->bytes, cut) == 0, "cut before its end");
    }
}

/* The order of the most edges and racks that the fields have room for. */
static void run_longest(void)
{
    uint8_t bytes[WICHTEAB_ORDER_LONGEST] = {0xFF, 0xFF, 0xFC};
    expect(wichteab_order_length(bytes, sizeof bytes) == sizeof bytes, "the longest order");
    expect(wichteab_order_length(bytes, sizeof bytes - 1) == 0, "the longest order but its last byte");
}

/* The lengths of what the library writes, as the header's sums have them. */
static void run_sums(void)
{
    static const size_t plans[] = {3, 5, 6, 8, 9, 11, 12, 14, 15};
    static const size_t plans_two[] = {3, 6, 8, 10, 12, 15, 17, 19, 21};
    uint32_t moves;
    for (moves = 0; moves < sizeof plans / sizeof plans[0]; moves++) {
        expect(wichteab_plan_length(1, moves) == plans[moves], "wichteab_plan_length of edition one");
        expect(wichteab_plan_length(2, moves) == plans_two[moves], "wichteab_plan_length of edition two");
        expect(wichteab_timetable_buffer_length(moves) == 3 * (size_t)moves + 3, "wichteab_timetable_buffer_length");
    }
    expect(wichteab_plan_length(1, 0x3FFFFF) == 6291458, "the longest plan of edition one");
    expect(wichteab_plan_length(2, 0x3FFFFF) == 9437185, "the longest plan of edition two");
    expect(wichteab_timetable_buffer_length(0x3FFFFF) == 12582912, "the longest plan's timetable");
    expect(wichteab_plan_buffer_length(4) == 1155, "a plan buffer for 4 positions");
    expect(wichteab_carry_buffer_length(1) == 3 && wichteab_carry_buffer_length(2) == 6, "a carry's buffer for 1 and 2 positions");
    expect(wichteab_carry_buffer_length(5) == 12 && wichteab_carry_buffer_length(64) == 145, "for 5 and 64");
    expect(wichteab_plan_buffer_length(15) == 60753, "a plan buffer for 15 positions");
    expect(wichteab_plan_buffer_length(16) == 73731, "a plan buffer for 16 positions");
    expect(wichteab_plan_buffer_length(64) == 4718595, "a plan buffer for 64 positions");
    expect(wichteab_plan_length(2, 8 * 64 * 64 * 64) == 4718595, "it is enough for the most moves");
}

/* The length of a plan's record in the other edition, off the three bytes that a plan begins with. */
static void run_converted(void)
{
    static const struct length_case plans[] = {
        {"no moves, edition one", 3, 3, {0x00, 0x00, 0x00}},
        {"no moves, edition two", 3, 3, {0x00, 0x00, 0x01}},
        {"four moves, edition one", 12, 9, {0x00, 0x00, 0x10}},
        {"four moves, edition two", 9, 12, {0x00, 0x00, 0x11}},
        {"five moves, edition one", 15, 11, {0x00, 0x00, 0x14}},
        {"five moves, edition two", 11, 15, {0x00, 0x00, 0x15}},
        {"the most moves, edition one, cut", 9437185, 3, {0xFF, 0xFF, 0xFC}},
        {"the most moves, edition two, cut", 6291458, 3, {0xFF, 0xFF, 0xFD}},
        {"bits of all three bytes", 3 + 9 * (0x048D15 / 4) + 3, 3, {0x12, 0x34, 0x54}},
        {"no edition", 12, 3, {0x00, 0x00, 0x13}},
        {"two bytes", 0, 2, {0xFF, 0xFF}},
        {"no bytes", 0, 0, {0}},
    };
    size_t i;
    for (i = 0; i < sizeof plans / sizeof plans[0]; i++) {
        expect(wichteab_converted_length(plans[i].bytes, plans[i].length) == plans[i].expected, plans[i].name);
    }
}

int main(void)
{
    size_t i;
    for (i = 0; i < sizeof orders / sizeof orders[0]; i++) {
        run(wichteab_order_length, &orders[i]);
    }
    for (i = 0; i < sizeof timetables / sizeof timetables[0]; i++) {
        run(wichteab_timetable_length, &timetables[i]);
    }
    run_longest();
    run_sums();
    run_converted();
    return close_tests();
}
