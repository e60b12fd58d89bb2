/*
 * A floor controller in miniature: it holds a live floor, opened with an order and a timetable, and runs the
 * timetable's steps on it. Where a real controller would start the drives, this one prints the moves and where the
 * racks then stand, position by position. A viewer tries to run a step and may not; in the end a supervisor takes the
 * last step back, and it is run again.
 *
 *     cc -I include examples/controller.c target/staticlib/libcontroller.a -o controller
 *     ./controller examples/casebook.order examples/casebook.timetable
 *
 * Exit status: 0 all steps run, 1 refused, 2 not run at all.
 */
#include <errno.h>
#include <stdio.h>
#include <stdlib.h>
#include <string.h>

#include "wichteab.h"

/* A record, lent to the library by its pointer and length. */
struct record {
    uint8_t *bytes;
    size_t length;
};

/* The whole file, which the caller frees. */
static struct record read_file(const char *name)
{
    struct record record = {NULL, 0};
    size_t room = 0, got = 1;
    FILE *file = fopen(name, "rb");
    while (file != NULL && got > 0) {
        if (record.length == room) {
            uint8_t *larger = (uint8_t *)realloc(record.bytes, room = 2 * room + 1024);
            if (larger == NULL) {
                fprintf(stderr, "controller: no memory for %s\n", name);
                exit(2);
            }
            record.bytes = larger;
        }
        got = fread(record.bytes + record.length, 1, room - record.length, file);
        record.length += got;
    }
    if (file == NULL || ferror(file)) {
        fprintf(stderr, "controller: cannot read %s: %s\n", name, strerror(errno));
        exit(2);
    }
    fclose(file);
    return record;
}

/* Says what is wrong, if something is. */
static int refused(uint64_t answer)
{
    uint32_t number = wichteab_number(answer);
    if (number == WICHTEAB_ACCEPTED) {
        return 0;
    }
    printf("refused %u %u %s: %s\n", (unsigned)number, (unsigned)wichteab_place(answer),
           wichteab_family(number), wichteab_reason(number));
    return 1;
}

/* The order and the timetable, lent to every call, and the live floor. */
struct controller {
    struct record order, timetable;
    wichteab_floor floor;
};

/* What stands where, as this role may see it. */
static int show(const struct controller *it, uint32_t role)
{
    uint8_t racks[64];
    uint32_t position;
    uint64_t answer = wichteab_floor_read(&it->floor, role, it->order.bytes, it->order.length, it->timetable.bytes,
                                          it->timetable.length, racks);
    if (refused(answer)) {
        return 1;
    }
    printf("%u:", (unsigned)wichteab_floor_steps(answer));
    for (position = 0; position < it->floor.positions; position++) {
        if (racks[position] == 0) {
            printf(" .");
        } else {
            printf(" %u", (unsigned)racks[position]);
        }
    }
    printf("\n");
    return 0;
}

/* The moves of a step that was run. */
static int print_moves(const struct controller *it, uint32_t number)
{
    uint64_t part = wichteab_timetable_step(it->timetable.bytes, it->timetable.length, number);
    const uint8_t *step = it->timetable.bytes + wichteab_step_offset(part);
    uint32_t i;
    if (refused(part)) {
        return 1;
    }
    printf("run");
    for (i = 1; i <= wichteab_step_moves(step); i++) {
        struct wichteab_move move = wichteab_step_move(step, i);
        printf(" %u>%u", (unsigned)move.left, (unsigned)move.entered);
    }
    printf("\n");
    return 0;
}

/* Runs the next step as this role, and shows it. */
static int run_step(struct controller *it, uint32_t role)
{
    uint64_t answer = wichteab_floor_run(&it->floor, role, it->order.bytes, it->order.length, it->timetable.bytes,
                                         it->timetable.length);
    if (refused(answer)) {
        return 1;
    }
    return print_moves(it, wichteab_floor_steps(answer)) || show(it, role);
}

/* Takes the last step back as this role, and shows it. */
static int take_back(struct controller *it, uint32_t role)
{
    uint64_t answer = wichteab_floor_take_back(&it->floor, role, it->order.bytes, it->order.length, it->timetable.bytes,
                                               it->timetable.length);
    if (refused(answer)) {
        return 1;
    }
    printf("taken back\n");
    return show(it, role);
}

/* Opens the floor and runs all steps; then the last one is taken back and run again. */
static int drive(struct controller *it)
{
    uint64_t answer = wichteab_timetable_check(it->order.bytes, it->order.length, it->timetable.bytes,
                                               it->timetable.length);
    uint32_t steps = wichteab_timetable_steps(answer), number;
    if (refused(answer)
        || refused(wichteab_floor_open(&it->floor, WICHTEAB_VIEWER, it->order.bytes, it->order.length,
                                       it->timetable.bytes, it->timetable.length))
        || show(it, WICHTEAB_VIEWER)) {
        return 1;
    }
    (void)run_step(it, WICHTEAB_VIEWER);
    for (number = 1; number <= steps; number++) {
        if (run_step(it, WICHTEAB_OPERATOR)) {
            return 1;
        }
    }
    return steps > 0 && (take_back(it, WICHTEAB_SUPERVISOR) || run_step(it, WICHTEAB_SUPERVISOR));
}

int main(int argc, char **argv)
{
    struct controller it = {{NULL, 0}, {NULL, 0}, WICHTEAB_FLOOR_CLOSED};
    int status;
    if (argc != 3) {
        fprintf(stderr, "usage: controller ORDER TIMETABLE\n");
        return 2;
    }
    it.order = read_file(argv[1]);
    it.timetable = read_file(argv[2]);
    status = drive(&it);
    free(it.order.bytes);
    free(it.timetable.bytes);
    return status;
}
