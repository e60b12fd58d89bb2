/* Short orders written out from C: the models and the refusals, input and number one line each. */
#include <string.h>

#include "expect.h"
#include "wichteab.h"

struct expand_case {
    const char *name;
    uint32_t number;
    size_t lent;      /* bytes of the buffer */
    size_t full;      /* the full order's length where it is accepted */
    size_t length;    /* of the short order */
    uint8_t bytes[8];
};

static const struct expand_case cases[] = {
    {"model 1 without racks", 0, 14, 14, 2, {1, 0}},
    {"model 1, rack 1 from 0 to 5", 0, 15, 15, 4, {1, 2, 0x00, 0x50}},
    {"model 2 without racks", 0, 29, 29, 2, {2, 0}},
    {"model 3 without racks", 0, 39, 39, 2, {3, 0}},
    {"model 4 without racks", 0, 50, 50, 2, {4, 0}},
    {"model 5 without racks", 0, 171, 171, 2, {5, 0}},
    {"model 5, racks 1 and 2 change places, 0 and 63", 0, 174, 174, 5, {5, 4, 0x03, 0xFF, 0xC0}},
    {"more buffer than is needed", 0, 40, 14, 2, {1, 0}},
    {"no bytes", 50, 40, 0, 0, {0}},
    {"one byte", 50, 40, 0, 1, {1}},
    {"the racks missing", 50, 40, 0, 2, {1, 2}},
    {"a byte too many", 50, 40, 0, 3, {1, 0, 0}},
    {"the spare bit set", 50, 40, 0, 2, {1, 1}},
    {"a pad bit set", 50, 40, 0, 4, {1, 2, 0x00, 0x51}},
    {"a pad bit set, and model 0", 50, 40, 0, 4, {0, 2, 0x00, 0x51}},
    {"model 0", 51, 40, 0, 2, {0, 0}},
    {"model 6", 51, 40, 0, 2, {6, 0}},
    {"model 255", 51, 40, 0, 2, {255, 0}},
    {"model 0, and no buffer", 51, 0, 0, 2, {0, 0}},
    {"model 0, and a goal beyond model 1", 51, 40, 0, 4, {0, 2, 0x00, 0x60}},
    {"a start of n", 14, 40, 0, 4, {1, 2, 0x18, 0x00}},
    {"a goal of n", 14, 40, 0, 4, {1, 2, 0x00, 0x60}},
    {"a start shared", 14, 40, 0, 5, {1, 4, 0x04, 0x10, 0x02}},
    {"a goal of n, and no buffer", 14, 0, 0, 4, {1, 2, 0x00, 0x60}},
    {"a buffer of one byte less", 52, 13, 0, 2, {1, 0}},
    {"a buffer of one byte less, for the largest model", 52, 170, 0, 2, {5, 0}},
    {"no buffer", 52, 0, 0, 2, {1, 0}},
};

/* Model 1: 2 rows of 3 positions, 0-1 0-3 1-2 1-4 2-5 3-4 4-5, rack 1 from 0 to 5. */
static const uint8_t first_model[15] = {0x0C, 0x0E, 0x04, 0x00, 0x10, 0x03, 0x04, 0x20,
                                        0x44, 0x08, 0x50, 0xC4, 0x10, 0x50, 0x05};

static void run(const struct expand_case *c)
{
    uint8_t buffer[256];
    uint64_t answer;
    size_t length;
    memset(buffer, FILL, sizeof buffer);
    answer = wichteab_order_expand(c->bytes, c->length, buffer, c->lent);
    expect(wichteab_number(answer) == c->number, c->name);
    if (wichteab_number(answer) != WICHTEAB_ACCEPTED) {
        expect(wichteab_place(answer) == 0 && untouched(buffer, 0, sizeof buffer), c->name);
        return;
    }
    length = wichteab_expanded_length(answer);
    expect(length == c->full && untouched(buffer, length, sizeof buffer), c->name);
    expect(wichteab_order_check(buffer, length) == 0, "the full order is well formed");
    expect(wichteab_floor_check(buffer, length) == 0, "the full order's floor can be planned");
}

int main(void)
{
    uint8_t buffer[sizeof first_model];
    size_t i;
    for (i = 0; i < sizeof cases / sizeof cases[0]; i++) {
        run(&cases[i]);
    }
    wichteab_order_expand(cases[1].bytes, cases[1].length, buffer, sizeof buffer);
    expect(memcmp(buffer, first_model, sizeof first_model) == 0, "model 1 written out, byte for byte");
    return close_tests();
}
