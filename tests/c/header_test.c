/* What the header itself has: the version, the numbers with their words, and the helpers that read records. */
#include <string.h>

#include "expect.h"
#include "wichteab.h"

struct fault {
    uint32_t constant;
    uint32_t number;
    const char *family;
};

static const struct fault faults[] = {
    {WICHTEAB_ORDER_LENGTH, 10, "order"},
    {WICHTEAB_ORDER_POSITIONS, 11, "order"},
    {WICHTEAB_ORDER_PADDING, 12, "order"},
    {WICHTEAB_ORDER_EDGE, 13, "order"},
    {WICHTEAB_ORDER_RACK, 14, "order"},
    {WICHTEAB_FLOOR_CROWDED, 20, "floor"},
    {WICHTEAB_FLOOR_NOT_BICONNECTED, 21, "floor"},
    {WICHTEAB_FLOOR_RING, 22, "floor"},
    {WICHTEAB_PLAN_BUFFER, 23, "floor"},
    {WICHTEAB_FLOOR_ORDER, 24, "floor"},
    {WICHTEAB_FLOOR_SIDES, 26, "floor"},
    {WICHTEAB_FLOOR_NOT_CONNECTED, 27, "floor"},
    {WICHTEAB_CARRY_BUFFER, 28, "floor"},
    {WICHTEAB_VACANCY_COUNT, 29, "floor"},
    {WICHTEAB_PLAN_LENGTH, 30, "plan"},
    {WICHTEAB_PLAN_PADDING, 31, "plan"},
    {WICHTEAB_PLAN_MOVE, 32, "plan"},
    {WICHTEAB_PLAN_GOAL, 33, "plan"},
    {WICHTEAB_PLAN_NO_RACK, 34, "plan"},
    {WICHTEAB_PLAN_OCCUPIED, 35, "plan"},
    {WICHTEAB_PLAN_RACK, 36, "plan"},
    {WICHTEAB_SECOND_BUFFER, 37, "plan"},
    {WICHTEAB_CONVERTED_BUFFER, 38, "plan"},
    {WICHTEAB_TIMETABLE_LENGTH, 40, "timetable"},
    {WICHTEAB_TIMETABLE_PADDING, 41, "timetable"},
    {WICHTEAB_TIMETABLE_STEP, 42, "timetable"},
    {WICHTEAB_TIMETABLE_GOAL, 43, "timetable"},
    {WICHTEAB_TIMETABLE_BUFFER, 44, "timetable"},
    {WICHTEAB_STEP_NUMBER, 45, "timetable"},
    {WICHTEAB_SEASON_CUT, 46, "timetable"},
    {WICHTEAB_SEASON_PAIRS, 47, "timetable"},
    {WICHTEAB_SHORT_ORDER, 50, "other"},
    {WICHTEAB_MODEL_UNKNOWN, 51, "other"},
    {WICHTEAB_ORDER_BUFFER, 52, "other"},
    {WICHTEAB_FLOOR_RIGHT, 60, "other"},
    {WICHTEAB_FLOOR_RUN, 61, "other"},
    {WICHTEAB_FLOOR_TAKE_BACK, 62, "other"},
};
#define FAULTS (sizeof faults / sizeof faults[0])

static int listed(uint32_t number)
{
    size_t i;
    for (i = 0; i < FAULTS; i++) {
        if (faults[i].number == number) {
            return 1;
        }
    }
    return 0;
}

/* Each number has its own sentence, and a number that is not listed the one of the unknown. */
static void run_words(void)
{
    const char *unknown = wichteab_reason(255);
    uint32_t number = 1;
    size_t i;
    for (i = 0; i < FAULTS; i++) {
        const char *reason = wichteab_reason(faults[i].constant);
        expect(faults[i].constant == faults[i].number, "a constant and its number");
        expect(strcmp(wichteab_family(faults[i].constant), faults[i].family) == 0, "a family");
        expect(strcmp(reason, unknown) != 0 && reason[strlen(reason) - 1] == '.', "a reason");
    }
    expect(strcmp(wichteab_reason(WICHTEAB_ACCEPTED), "Accepted.") == 0, "the reason of 0");
    while (number < 256 && (listed(number) || strcmp(wichteab_reason(number), unknown) == 0)) {
        number++;
    }
    expect(number == 256, "the reason of a number that is not listed");
    expect(strcmp(wichteab_family(WICHTEAB_ACCEPTED), "other") == 0, "the family of 0");
    expect(strcmp(wichteab_family(50), "other") == 0, "the family of 50");
    expect(strstr(wichteab_reason(WICHTEAB_PLAN_BUFFER), " 18 * n * n * n + 3 bytes") != NULL, "the size in the reason of 23");
}

static void run_version(void)
{
    char numbers[40];
    sprintf(numbers, "%d.%d.%d", WICHTEAB_VERSION_MAJOR, WICHTEAB_VERSION_MINOR, WICHTEAB_VERSION_PATCH);
    expect(strcmp(numbers, WICHTEAB_VERSION) == 0, "the version's numbers are its string's");
    expect(WICHTEAB_VERSION_MAJOR == 3, "version 3");
}

static int is(struct wichteab_move move, unsigned left, unsigned entered)
{
    return move.left == left && move.entered == entered;
}

/* A plan's move, and the rack that it names. */
static int names(const uint8_t *plan, uint32_t number, unsigned left, unsigned entered, unsigned rack)
{
    return is(wichteab_plan_move(plan, number), left, entered) && wichteab_plan_rack(plan, number) == rack;
}

/* Plans of both editions, read by the helpers: a move in each of the places that moves take in bytes. */
static void run_plans(void)
{
    static const uint8_t one[] = {0x00, 0x00, 0x10, 0x00, 0x10, 0xC2, 0x08, 0x00, 0x43};
    static const uint8_t two[] = {0x00, 0x00, 0x11, 0x00, 0x10, 0x03, 0x08, 0x10, 0x80, 0x04, 0x10, 0xC0};
    /* 63>0 rack 64, 0>63 rack 1, 63>63 rack 64, 0>0 rack 64, 1>2 rack 4 */
    static const uint8_t ends[] = {0x00, 0x00, 0x15, 0xFC, 0x0F, 0xC0, 0xFC, 0x0F, 0xFF, 0xFC, 0x00, 0x3F, 0x04, 0x20, 0xC0};
    expect(wichteab_plan_edition(one) == 1 && wichteab_plan_edition(two) == 2, "wichteab_plan_edition");
    expect(names(one, 1, 0, 1, 0) && names(one, 2, 3, 2, 0), "moves 1 and 2 of edition one, which names no rack");
    expect(names(one, 3, 2, 0, 0) && names(one, 4, 1, 3, 0), "moves 3 and 4 of edition one");
    expect(names(two, 1, 0, 1, 1) && names(two, 2, 3, 2, 2), "moves 1 and 2 of edition two");
    expect(names(two, 3, 2, 0, 2) && names(two, 4, 1, 3, 1), "moves 3 and 4 of edition two");
    expect(names(ends, 1, 63, 0, 64) && names(ends, 2, 0, 63, 1), "the first and second of five");
    expect(names(ends, 3, 63, 63, 64) && names(ends, 4, 0, 0, 64), "the third and fourth of five");
    expect(names(ends, 5, 1, 2, 4), "the fifth of five");
}

/* The case book's order and timetable, read by the helpers. */
static void run_records(void)
{
    static const uint8_t order[] = {0x08, 0x0A, 0x08, 0x00, 0x10, 0x02, 0x04, 0x20, 0x43, 0x08, 0x30, 0x03, 0x0C, 0x00};
    static const uint8_t timetable[] = {0x00, 0x00, 0x08, 0x02, 0x00, 0x10, 0xC2, 0x02, 0x04, 0x30, 0x80};
    static const uint8_t ends[] = {0x03, 0x03, 0xFF, 0xC0, 0xFF, 0xF0}; /* a step of 0>63, 63>0, 63>63 */
    const uint8_t *second = timetable + wichteab_step_offset(wichteab_timetable_step(timetable, sizeof timetable, 2));
    expect(wichteab_order_positions(order) == 4, "wichteab_order_positions");
    expect(wichteab_step_moves(second) == 2, "the moves of step 2");
    expect(is(wichteab_step_move(second, 1), 1, 3) && is(wichteab_step_move(second, 2), 2, 0), "step 2");
    expect(wichteab_step_moves(ends) == 3 && is(wichteab_step_move(ends, 1), 0, 63), "the first of three");
    expect(is(wichteab_step_move(ends, 2), 63, 0), "the second of three");
    expect(is(wichteab_step_move(ends, 3), 63, 63), "the third of three");
}

int main(void)
{
    run_version();
    run_words();
    run_plans();
    run_records();
    return close_tests();
}
