/* Trains called from C: ten positions in a ring, 0 to 9, and racks in a row behind the vacancy at 9, each of which is to go one position on.
   Eight make a train; of nine the last goes one step later. */
#include <string.h>

#include "expect.h"
#include "wichteab.h"

/* The racks 1 to 9 stand at 0 to 8. */
static const uint8_t nine[] = {
    0x14, 0x14, 0x24, 0x00, 0x10, 0x09, 0x04, 0x20, 0x83, 0x0C, 0x41, 0x05, 0x14, 0x61, 0x87, 0x1C, 0x82,
    0x09, 0x00, 0x10, 0x83, 0x10, 0x51, 0x87, 0x20, 0x10, 0x83, 0x10, 0x51, 0x87, 0x20, 0x90};

/* The racks 1 to 8 stand at 1 to 8. */
static const uint8_t eight[] = {
    0x14, 0x14, 0x20, 0x00, 0x10, 0x09, 0x04, 0x20, 0x83, 0x0C, 0x41, 0x05, 0x14, 0x61, 0x87, 0x1C, 0x82,
    0x09, 0x04, 0x20, 0xC4, 0x14, 0x61, 0xC8, 0x08, 0x31, 0x05, 0x18, 0x72, 0x09};

/* 8>9, 7>8, and so on to 0>1 */
static const uint8_t plan[] = {
    0x00, 0x00, 0x24, 0x20, 0x91, 0xC8, 0x18, 0x71, 0x46, 0x10, 0x50, 0xC4, 0x08, 0x30, 0x42, 0x00, 0x10};

/* 1>2 to 8>9 */
static const uint8_t one_train[] = {
    0x00, 0x00, 0x04, 0x08, 0x04, 0x20, 0x83, 0x0C, 0x41, 0x05, 0x14, 0x61, 0x87, 0x1C, 0x82, 0x09};

/* 0>1 to 8>9 */
static const uint8_t too_long[] = {
    0x00, 0x00, 0x04, 0x09, 0x00, 0x10, 0x42, 0x08, 0x30, 0xC4, 0x10, 0x51, 0x46, 0x18, 0x71, 0xC8, 0x20,
    0x90};

/* 1>2 to 8>9, and then 0>1 */
static const uint8_t one_later[] = {
    0x00, 0x00, 0x08, 0x08, 0x04, 0x20, 0x83, 0x0C, 0x41, 0x05, 0x14, 0x61, 0x87, 0x1C, 0x82, 0x09, 0x01,
    0x00, 0x10};

static void accepted(const uint8_t *order, size_t order_length, const uint8_t *timetable, size_t length, uint32_t steps, uint32_t moves)
{
    uint64_t answer = wichteab_timetable_check(order, order_length, timetable, length);
    expect(wichteab_number(answer) == WICHTEAB_ACCEPTED, "accepted");
    expect(wichteab_timetable_steps(answer) == steps && wichteab_timetable_moves(answer) == moves, "its steps and moves");
}

int main(void)
{
    uint8_t buffer[40];
    size_t end;
    uint64_t answer = wichteab_timetable_check(nine, sizeof nine, too_long, sizeof too_long);
    expect(wichteab_number(answer) == WICHTEAB_TIMETABLE_STEP && wichteab_place(answer) == 1, "a train of nine is 42, step 1");
    accepted(eight, sizeof eight, one_train, sizeof one_train, 1, WICHTEAB_TRAIN_LONGEST);
    accepted(nine, sizeof nine, one_later, sizeof one_later, 2, WICHTEAB_TRAIN_LONGEST + 1);

    memset(buffer, FILL, sizeof buffer);
    answer = wichteab_timetable_make(nine, sizeof nine, plan, sizeof plan, buffer, sizeof buffer);
    end = (size_t)wichteab_timetable_length(buffer, sizeof buffer);
    expect(wichteab_number(answer) == WICHTEAB_ACCEPTED && wichteab_timetable_steps(answer) == 2, "the plan makes two steps");
    expect(end == sizeof one_later && memcmp(buffer, one_later, end) == 0, "the last rack goes one step later");
    expect(untouched(buffer, end, sizeof buffer), "the bytes behind the timetable stay as they were");
    return close_tests();
}
