/* The order reader called from C: the case book's order and the refusals, input and number one line each. */
#include <stdlib.h>
#include <string.h>

#include "expect.h"
#include "wichteab.h"

struct order_case {
    const char *name;
    uint32_t number;
    size_t length;
    uint8_t bytes[16];
};

static const struct order_case cases[] = {
    {"the case book's order", 0, 14,
     {0x08, 0x0A, 0x08, 0x00, 0x10, 0x02, 0x04, 0x20, 0x43, 0x08, 0x30, 0x03, 0x0C, 0x00}},
    {"one position, no edge, no rack", 0, 3, {0x02, 0x00, 0x00}},
    {"one position, one rack", 0, 5, {0x02, 0x00, 0x04, 0x00, 0x00}},
    {"64 positions", 0, 3, {0x80, 0x00, 0x00}},
    {"a start that is another rack's goal", 0, 6, {0x06, 0x00, 0x08, 0x00, 0x20, 0x80}},
    {"no bytes", 10, 0, {0}},
    {"one byte", 10, 1, {0x02}},
    {"two bytes", 10, 2, {0x02, 0x00}},
    {"the edge missing", 10, 3, {0x06, 0x02, 0x00}},
    {"a byte too many", 10, 4, {0x02, 0x00, 0x00, 0x00}},
    {"a byte too many, n = 0, spare bits set", 10, 4, {0x00, 0x00, 0x03, 0x00}},
    {"n = 0", 11, 3, {0x00, 0x00, 0x00}},
    {"n = 65", 11, 3, {0x82, 0x00, 0x00}},
    {"n = 127, spare bits set", 11, 3, {0xFE, 0x00, 0x03}},
    {"the first spare bit set", 12, 3, {0x02, 0x00, 0x02}},
    {"the second spare bit set", 12, 3, {0x02, 0x00, 0x01}},
    {"a pad bit set", 12, 5, {0x06, 0x02, 0x00, 0x00, 0x11}},
    {"an edge not lower first", 13, 5, {0x06, 0x02, 0x00, 0x04, 0x00}},
    {"an edge from a position to itself", 13, 5, {0x06, 0x02, 0x00, 0x04, 0x10}},
    {"an edge to position n", 13, 5, {0x06, 0x02, 0x00, 0x00, 0x30}},
    {"an edge twice", 13, 6, {0x06, 0x04, 0x00, 0x00, 0x10, 0x01}},
    {"edges descending", 13, 6, {0x06, 0x04, 0x00, 0x04, 0x20, 0x01}},
    {"a start of n", 14, 5, {0x06, 0x00, 0x04, 0x0C, 0x00}},
    {"a goal of n", 14, 5, {0x06, 0x00, 0x04, 0x00, 0x30}},
    {"a start shared", 14, 6, {0x06, 0x00, 0x08, 0x04, 0x10, 0x02}},
    {"a goal shared", 14, 6, {0x06, 0x00, 0x08, 0x00, 0x20, 0x41}},
    {"two racks on one position", 14, 6, {0x02, 0x00, 0x08, 0x00, 0x00, 0x00}},
};

/* The answer on a copy of exactly this length, and whether the copy is unchanged afterwards. */
static uint64_t check(const uint8_t *bytes, size_t length, int *unchanged)
{
    uint8_t *copy = (uint8_t *)malloc(length > 0 ? length : 1);
    uint64_t answer;
    if (copy == NULL) {
        abort();
    }
    memcpy(copy, bytes, length);
    answer = wichteab_order_check(copy, length);
    *unchanged = memcmp(copy, bytes, length) == 0;
    free(copy);
    return answer;
}

static void run(const struct order_case *c)
{
    int unchanged;
    uint64_t answer = check(c->bytes, c->length, &unchanged);
    expect(wichteab_number(answer) == c->number && wichteab_place(answer) == 0 && unchanged, c->name);
    if (c->length > 0) {
        int of_its_length = wichteab_order_length(c->bytes, c->length) == c->length;
        expect(of_its_length == (c->number != WICHTEAB_ORDER_LENGTH), "wichteab_order_length");
    }
}

int main(void)
{
    size_t i;
    int unchanged;
    for (i = 0; i < sizeof cases / sizeof cases[0]; i++) {
        run(&cases[i]);
    }
    for (i = 0; i < cases[0].length; i++) {
        uint64_t answer = check(cases[0].bytes, i, &unchanged);
        expect(answer == WICHTEAB_ORDER_LENGTH && unchanged, "the case book's order, cut");
    }
    return close_tests();
}
