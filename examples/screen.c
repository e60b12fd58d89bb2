/*
 * A driver's screen: the rack that each move of a plan takes. A plan of edition two names it. A plan of edition
 * one does not, and is converted first.
 *
 *     cc -I include examples/screen.c target/staticlib/libcontroller.a -o screen
 *     ./screen examples/casebook.order examples/casebook.plan
 *
 * Exit status: 0 all moves shown, 1 refused and no move shown, 2 not run at all.
 */
#include <errno.h>
#include <stdio.h>
#include <stdlib.h>
#include <string.h>

#include "wichteab.h"

/* A record, lent to the library by its pointer and length. */
struct record {
    uint8_t *bytes;
    size_t length;
};

/* The memory, or a larger one with the same bytes at its front, which the caller frees. */
static uint8_t *memory_of(uint8_t *bytes, size_t length)
{
    uint8_t *memory = (uint8_t *)realloc(bytes, length);
    if (memory == NULL) {
        fprintf(stderr, "screen: no memory for %lu bytes\n", (unsigned long)length);
        exit(2);
    }
    return memory;
}

/* The whole file, which the caller frees. */
static struct record read_file(const char *name)
{
    struct record record = {NULL, 0};
    size_t room = 0, got = 1;
    FILE *file = fopen(name, "rb");
    while (file != NULL && got > 0) {
        if (record.length == room) {
            room = 2 * room + 1024;
            record.bytes = memory_of(record.bytes, room);
        }
        got = fread(record.bytes + record.length, 1, room - record.length, file);
        record.length += got;
    }
    if (file == NULL || ferror(file)) {
        fprintf(stderr, "screen: cannot read %s: %s\n", name, strerror(errno));
        exit(2);
    }
    fclose(file);
    return record;
}

/* Says what is wrong, if something is. */
static int refused(uint64_t answer)
{
    uint32_t number = wichteab_number(answer);
    if (number == WICHTEAB_ACCEPTED) {
        return 0;
    }
    printf("refused %u %u %s: %s\n", (unsigned)number, (unsigned)wichteab_place(answer),
           wichteab_family(number), wichteab_reason(number));
    return 1;
}

/* Checks the plan, whatever it is, and sees that it is of edition two afterwards. */
static uint64_t name_racks(const struct record *order, struct record *plan)
{
    uint64_t answer = wichteab_plan_check(order->bytes, order->length, plan->bytes, plan->length);
    if (wichteab_number(answer) == WICHTEAB_ACCEPTED && wichteab_plan_edition(plan->bytes) == 1) {
        struct record two;
        two.length = wichteab_converted_length(plan->bytes, plan->length);
        two.bytes = memory_of(NULL, two.length);
        answer = wichteab_plan_convert(order->bytes, order->length, plan->bytes, plan->length, two.bytes,
                                       two.length);
        free(plan->bytes);
        *plan = two;
    }
    return answer;
}

/* The plan's moves in turn, each with its rack. */
static int show(const struct record *order, struct record *plan)
{
    uint64_t answer = name_racks(order, plan);
    uint32_t number;
    if (refused(answer)) {
        return 1;
    }
    for (number = 1; number <= wichteab_plan_moves(answer); number++) {
        struct wichteab_move move = wichteab_plan_move(plan->bytes, number);
        printf("%u rack %u %u>%u\n", (unsigned)number, (unsigned)wichteab_plan_rack(plan->bytes, number),
               (unsigned)move.left, (unsigned)move.entered);
    }
    return 0;
}

int main(int argc, char **argv)
{
    struct record order, plan;
    int status;
    if (argc != 3) {
        fprintf(stderr, "usage: screen ORDER PLAN\n");
        return 2;
    }
    order = read_file(argv[1]);
    plan = read_file(argv[2]);
    status = show(&order, &plan);
    free(order.bytes);
    free(plan.bytes);
    return status;
}
