/* The live floor called from C: the case book's order and timetable, the roles, and a picture that no call has made. */
#include <string.h>

#include "expect.h"
#include "wichteab.h"

/* The floor F; rack 1 from 0 to 3, rack 2 from 3 to 0. */
static const uint8_t order[] = {
    0x08, 0x0A, 0x08, 0x00, 0x10, 0x02, 0x04, 0x20, 0x43, 0x08, 0x30, 0x03, 0x0C, 0x00};

/* 0>1 3>2, then 1>3 2>0 */
static const uint8_t timetable[] = {0x00, 0x00, 0x08, 0x02, 0x00, 0x10, 0xC2, 0x02, 0x04, 0x30, 0x80};

static uint64_t open_as(wichteab_floor *floor, uint32_t role)
{
    return wichteab_floor_open(floor, role, order, sizeof order, timetable, sizeof timetable);
}

static uint64_t run_as(wichteab_floor *floor, uint32_t role)
{
    return wichteab_floor_run(floor, role, order, sizeof order, timetable, sizeof timetable);
}

static uint64_t back_as(wichteab_floor *floor, uint32_t role)
{
    return wichteab_floor_take_back(floor, role, order, sizeof order, timetable, sizeof timetable);
}

static uint64_t read_as(const wichteab_floor *floor, uint32_t role, uint8_t racks[64])
{
    return wichteab_floor_read(floor, role, order, sizeof order, timetable, sizeof timetable, racks);
}

/* Whether the racks 1 and 2 stand at these positions, after so many steps. */
static int stand(const wichteab_floor *floor, unsigned one, unsigned two, uint32_t steps)
{
    unsigned position;
    for (position = 0; position < 64; position++) {
        if (floor->racks[position] != (position == one ? 1 : position == two ? 2 : 0)) {
            return 0;
        }
    }
    return floor->positions == 4 && floor->steps == steps;
}

/* Refused with this number, and the floor as it was. */
static void refused(uint64_t answer, uint32_t number, const wichteab_floor *floor, const wichteab_floor *before, const char *name)
{
    expect(wichteab_number(answer) == number && wichteab_place(answer) == 0, name);
    expect(memcmp(floor, before, sizeof *floor) == 0, "a refused call changes nothing");
}

static void accepted(uint64_t answer, uint32_t steps, const char *name)
{
    expect(wichteab_number(answer) == WICHTEAB_ACCEPTED && wichteab_floor_steps(answer) == steps, name);
}

/* Until an opening succeeds, only opening is a right. */
static void closed(void)
{
    wichteab_floor floor = WICHTEAB_FLOOR_CLOSED, before = floor;
    uint8_t racks[64];
    memset(racks, FILL, sizeof racks);
    refused(read_as(&floor, WICHTEAB_SUPERVISOR, racks), WICHTEAB_FLOOR_RIGHT, &floor, &before, "a closed floor is not read");
    refused(run_as(&floor, WICHTEAB_SUPERVISOR), WICHTEAB_FLOOR_RIGHT, &floor, &before, "nor is a step run on it");
    refused(back_as(&floor, WICHTEAB_SUPERVISOR), WICHTEAB_FLOOR_RIGHT, &floor, &before, "nor taken back");
    refused(open_as(&floor, 0), WICHTEAB_FLOOR_RIGHT, &floor, &before, "nobody opens it");
    refused(open_as(&floor, 4), WICHTEAB_FLOOR_RIGHT, &floor, &before, "role 4 is no role");
    expect(untouched(racks, 0, sizeof racks), "a refused reading shows nothing");
}

/* The steps, there and back, by who may. */
static void driven(void)
{
    wichteab_floor floor = WICHTEAB_FLOOR_CLOSED, before;
    uint8_t racks[64];
    accepted(open_as(&floor, WICHTEAB_VIEWER), 0, "a viewer opens it");
    expect(stand(&floor, 0, 3, 0), "each rack stands at its start");
    before = floor;
    refused(run_as(&floor, WICHTEAB_VIEWER), WICHTEAB_FLOOR_RIGHT, &floor, &before, "a viewer runs no step");
    refused(back_as(&floor, WICHTEAB_OPERATOR), WICHTEAB_FLOOR_RIGHT, &floor, &before, "an operator takes none back");
    refused(back_as(&floor, WICHTEAB_SUPERVISOR), WICHTEAB_FLOOR_TAKE_BACK, &floor, &before, "there is no step to take back");
    accepted(run_as(&floor, WICHTEAB_OPERATOR), 1, "an operator runs the first step");
    expect(stand(&floor, 1, 2, 1), "both racks have moved");
    accepted(run_as(&floor, WICHTEAB_SUPERVISOR), 2, "a supervisor runs the second");
    expect(stand(&floor, 3, 0, 2), "they have changed places");
    before = floor;
    refused(run_as(&floor, WICHTEAB_OPERATOR), WICHTEAB_FLOOR_RUN, &floor, &before, "no step is left");
    accepted(back_as(&floor, WICHTEAB_SUPERVISOR), 1, "a supervisor takes it back");
    expect(stand(&floor, 1, 2, 1), "the racks are where they were");
    accepted(read_as(&floor, WICHTEAB_VIEWER, racks), 1, "a viewer reads it");
    expect(memcmp(racks, floor.racks, sizeof racks) == 0, "the racks are shown");
    accepted(open_as(&floor, WICHTEAB_OPERATOR), 0, "it is opened again");
    expect(stand(&floor, 0, 3, 0), "from the starts");
}

/* 60 before the checker's numbers, and those before 61 and 62; a refused opening leaves an open floor. */
static void which_first(void)
{
    wichteab_floor floor = WICHTEAB_FLOOR_CLOSED, before;
    open_as(&floor, WICHTEAB_VIEWER);
    before = floor;
    refused(wichteab_floor_run(&floor, WICHTEAB_VIEWER, order, 2, timetable, sizeof timetable), WICHTEAB_FLOOR_RIGHT, &floor, &before,
            "60 before 10");
    refused(wichteab_floor_run(&floor, WICHTEAB_OPERATOR, order, 2, timetable, sizeof timetable), WICHTEAB_ORDER_LENGTH, &floor, &before,
            "10 before 61");
    refused(wichteab_floor_take_back(&floor, WICHTEAB_SUPERVISOR, order, sizeof order, timetable, 4), WICHTEAB_TIMETABLE_LENGTH, &floor,
            &before, "40 before 62");
    refused(wichteab_floor_open(&floor, WICHTEAB_SUPERVISOR, order, sizeof order, timetable, 4), WICHTEAB_TIMETABLE_LENGTH, &floor, &before,
            "a refused opening keeps the floor");
}

/* A picture that no call has made: racks on 0 and 1, and the positions 0 and 1 alone known. */
static void any_picture(void)
{
    wichteab_floor floor = WICHTEAB_FLOOR_CLOSED, before;
    floor.racks[0] = 9;
    floor.racks[3] = 9;
    floor.positions = 3;
    before = floor;
    refused(run_as(&floor, WICHTEAB_OPERATOR), WICHTEAB_FLOOR_RUN, &floor, &before, "position 3 is not known");
    floor.positions = 4;
    accepted(run_as(&floor, WICHTEAB_OPERATOR), 1, "with four positions the step is legal");
    expect(floor.racks[1] == 9 && floor.racks[2] == 9 && floor.racks[0] == 0 && floor.racks[3] == 0, "whatever racks stand there");
    floor.steps = 3;
    before = floor;
    refused(run_as(&floor, WICHTEAB_OPERATOR), WICHTEAB_FLOOR_RUN, &floor, &before, "more steps run than the timetable has");
    refused(back_as(&floor, WICHTEAB_SUPERVISOR), WICHTEAB_FLOOR_TAKE_BACK, &floor, &before, "none of them is taken back");
}

int main(void)
{
    expect(sizeof(wichteab_floor) == 72, "the floor has no padding");
    closed();
    driven();
    which_first();
    any_picture();
    return close_tests();
}
