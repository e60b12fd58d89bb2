/*
 * Reads an order from the file named on the command line and says what it is:
 *
 *     cc -I include examples/order.c target/staticlib/libcontroller.a -o order
 *     ./order examples/casebook.order
 *
 * Exit status: 0 well formed, 1 refused, 2 not run at all.
 */
#include <errno.h>
#include <stdio.h>
#include <string.h>

#include "wichteab.h"

/* The longest order there can be, and one byte to see that a file is longer. */
#define MOST_BYTES (WICHTEAB_ORDER_LONGEST + 1)

/* The number in so many bits from this bit on, most significant first. */
static unsigned field(const uint8_t *bytes, size_t bit, unsigned width)
{
    unsigned value = 0;
    size_t end;
    for (end = bit + width; bit < end; bit++) {
        value = value << 1 | (bytes[bit / 8] >> (7 - bit % 8) & 1u);
    }
    return value;
}

static void describe(const uint8_t *order)
{
    unsigned positions = field(order, 0, 7), edges = field(order, 7, 8), racks = field(order, 15, 7);
    size_t starts = 24 + 12 * (size_t)edges;
    size_t goals = starts + 6 * (size_t)racks;
    unsigned i;
    printf("positions %u edges %u racks %u vacant %u\n", positions, edges, racks, positions - racks);
    for (i = 0; i < edges; i++) {
        printf("%s%u-%u", i == 0 ? "" : " ", field(order, 24 + 12 * (size_t)i, 6),
               field(order, 30 + 12 * (size_t)i, 6));
    }
    printf("\n");
    for (i = 0; i < racks; i++) {
        printf("rack %u from %u to %u\n", i + 1, field(order, starts + 6 * (size_t)i, 6),
               field(order, goals + 6 * (size_t)i, 6));
    }
}

/* Says what the order is, or what is wrong with it. */
static int judge(const uint8_t *order, size_t length)
{
    uint64_t answer = wichteab_order_check(order, length);
    uint32_t number = wichteab_number(answer);
    if (number == WICHTEAB_ACCEPTED) {
        describe(order);
        return 0;
    }
    printf("refused %u %u %s: %s\n", (unsigned)number, (unsigned)wichteab_place(answer),
           wichteab_family(number), wichteab_reason(number));
    return 1;
}

int main(int argc, char **argv)
{
    uint8_t order[MOST_BYTES];
    size_t length;
    FILE *file;
    if (argc != 2) {
        fprintf(stderr, "usage: order FILE\n");
        return 2;
    }
    file = fopen(argv[1], "rb");
    length = file == NULL ? 0 : fread(order, 1, sizeof order, file);
    if (file == NULL || ferror(file)) {
        fprintf(stderr, "order: cannot read %s: %s\n", argv[1], strerror(errno));
        return 2;
    }
    fclose(file);
    return judge(order, length);
}
