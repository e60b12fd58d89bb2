/*
 * An order delivered: it is planned, the plan is made a timetable, and the timetable is checked.
 *
 *     cc -I include examples/delivery.c target/staticlib/libcontroller.a -o delivery
 *     ./delivery examples/four_by_four.order
 *
 * It prints the counts, or why the order is refused. Exit status: 0 delivered, 1 refused, 2 not run at all.
 */
#include <errno.h>
#include <stdio.h>
#include <stdlib.h>
#include <string.h>

#include "wichteab.h"

/* A record: a buffer, and how many of its bytes the record takes. */
struct record {
    uint8_t *bytes;
    size_t length;
};

/* A buffer of so many bytes, which the caller frees. */
static uint8_t *buffer_of(size_t length)
{
    uint8_t *buffer = (uint8_t *)malloc(length);
    if (buffer == NULL) {
        fprintf(stderr, "delivery: no memory for %lu bytes\n", (unsigned long)length);
        exit(2);
    }
    return buffer;
}

/* The first bytes of the file: one more than the longest order has, to see that a file is longer. */
static struct record read_order(const char *name)
{
    struct record order;
    FILE *file = fopen(name, "rb");
    order.bytes = buffer_of(WICHTEAB_ORDER_LONGEST + 1);
    order.length = file == NULL ? 0 : fread(order.bytes, 1, WICHTEAB_ORDER_LONGEST + 1, file);
    if (file == NULL || ferror(file)) {
        fprintf(stderr, "delivery: cannot read %s: %s\n", name, strerror(errno));
        exit(2);
    }
    fclose(file);
    return order;
}

/* Says what is wrong, if something is. */
static int refused(uint64_t answer)
{
    uint32_t number = wichteab_number(answer);
    if (number == WICHTEAB_ACCEPTED) {
        return 0;
    }
    printf("refused %u %u %s: %s\n", (unsigned)number, (unsigned)wichteab_place(answer),
           wichteab_family(number), wichteab_reason(number));
    return 1;
}

/* Writes the plan of an order that wichteab_floor_check has accepted: it is of edition two. */
static uint64_t make_plan(const struct record *order, struct record *plan)
{
    size_t room = wichteab_plan_buffer_length(wichteab_order_positions(order->bytes));
    uint64_t answer;
    plan->bytes = buffer_of(room);
    answer = wichteab_plan_make(order->bytes, order->length, plan->bytes, room);
    plan->length = wichteab_plan_length(2, wichteab_plan_moves(answer));
    return answer;
}

/* Writes the timetable of a plan of so many moves. */
static uint64_t make_timetable(const struct record *order, const struct record *plan, uint32_t moves,
                               struct record *timetable)
{
    size_t room = wichteab_timetable_buffer_length(moves);
    uint64_t answer;
    timetable->bytes = buffer_of(room);
    answer = wichteab_timetable_make(order->bytes, order->length, plan->bytes, plan->length, timetable->bytes,
                                     room);
    timetable->length = (size_t)wichteab_timetable_length(timetable->bytes, room);
    return answer;
}

/* After the floor check nothing is refused any more: that is proved. A program asks all the same. */
static int deliver(const struct record *order, struct record *plan, struct record *timetable)
{
    uint64_t planned, made, checked;
    if (refused(wichteab_floor_check(order->bytes, order->length))) {
        return 1;
    }
    planned = make_plan(order, plan);
    if (refused(planned)) {
        return 1;
    }
    printf("plan: moves %u bytes %lu\n", (unsigned)wichteab_plan_moves(planned), (unsigned long)plan->length);
    made = make_timetable(order, plan, wichteab_plan_moves(planned), timetable);
    if (refused(made)) {
        return 1;
    }
    printf("timetable: steps %u bytes %lu\n", (unsigned)wichteab_timetable_steps(made),
           (unsigned long)timetable->length);
    checked = wichteab_timetable_check(order->bytes, order->length, timetable->bytes, timetable->length);
    if (refused(checked)) {
        return 1;
    }
    printf("checked: steps %u moves %u\n", (unsigned)wichteab_timetable_steps(checked),
           (unsigned)wichteab_timetable_moves(checked));
    return 0;
}

int main(int argc, char **argv)
{
    struct record order, plan = {NULL, 0}, timetable = {NULL, 0};
    int status;
    if (argc != 2) {
        fprintf(stderr, "usage: delivery ORDER\n");
        return 2;
    }
    order = read_order(argv[1]);
    status = deliver(&order, &plan, &timetable);
    free(order.bytes);
    free(plan.bytes);
    free(timetable.bytes);
    return status;
}
