/* One vacancy: the order of the refusals, and the judgement on small floors and on the known puzzle. */
#include <string.h>

#include "expect.h"
#include "wichteab.h"

struct vacancy_case {
    const char *name;
    uint32_t number;
    uint32_t impossible;
    size_t length;
    uint8_t bytes[16];
};

/* The ring of four is 0-1 0-3 1-2 2-3; F is 0-1 0-2 1-2 1-3 2-3. */
static const struct vacancy_case cases[] = {
    {"no bytes", 10, 0, 0, {0}},
    {"a byte too many", 10, 0, 4, {0x02, 0x00, 0x00, 0x00}},
    {"no position", 11, 0, 3, {0x00, 0x00, 0x00}},
    {"a spare bit set", 12, 0, 3, {0x02, 0x00, 0x01}},
    {"an edge turned", 13, 0, 5, {0x04, 0x02, 0x00, 0x04, 0x00}},
    {"a start of n", 14, 0, 5, {0x02, 0x00, 0x04, 0x04, 0x00}},
    {"one position, one rack: no vacancy", 29, 0, 5, {0x02, 0x00, 0x04, 0x00, 0x00}},
    {"two positions apart, no rack: 29 before 21", 29, 0, 3, {0x04, 0x00, 0x00}},
    {"one position alone", 21, 0, 3, {0x02, 0x00, 0x00}},
    {"a path of three", 21, 0, 9, {0x06, 0x04, 0x08, 0x00, 0x10, 0x42, 0x00, 0x10, 0x42}},
    {"F with three racks turned: an odd cycle", 0, 0, 15,
     {0x08, 0x0A, 0x0C, 0x00, 0x10, 0x02, 0x04, 0x20, 0x43, 0x08, 0x30, 0x01, 0x08, 0x10, 0x80}},
    {"a ring of four, nothing moves", 0, 0, 14,
     {0x08, 0x08, 0x0C, 0x00, 0x10, 0x03, 0x04, 0x20, 0x83, 0x00, 0x10, 0x80, 0x04, 0x20}},
    {"a ring of four, racks 1 and 2 exchanged", 0, 1, 14,
     {0x08, 0x08, 0x0C, 0x00, 0x10, 0x03, 0x04, 0x20, 0x83, 0x00, 0x10, 0x81, 0x00, 0x20}},
    {"a ring of four, rack 3 moves on", 0, 0, 14,
     {0x08, 0x08, 0x0C, 0x00, 0x10, 0x03, 0x04, 0x20, 0x83, 0x00, 0x10, 0x80, 0x04, 0x30}},
    {"a ring of four, the racks turned by one place", 0, 0, 14,
     {0x08, 0x08, 0x0C, 0x00, 0x10, 0x03, 0x04, 0x20, 0x83, 0x00, 0x10, 0x81, 0x08, 0x00}},
};

static void run(const struct vacancy_case *c)
{
    uint64_t answer = wichteab_one_vacancy(c->bytes, c->length);
    expect(wichteab_number(answer) == c->number, c->name);
    if (c->number == WICHTEAB_ACCEPTED) {
        expect(answer == (uint64_t)c->impossible << 8 && wichteab_impossible(answer) == c->impossible, c->name);
    } else {
        expect(wichteab_place(answer) == 0, c->name);
    }
}

/* Model 3 is 4 by 4. Each of 15 racks at its place, but for two exchanged: no moves solve it. */
static void run_puzzle(unsigned first, unsigned second, uint32_t impossible)
{
    uint8_t racks[2 + 23] = {3, 15 << 1}, full[WICHTEAB_ORDER_LONGEST];
    uint64_t expanded, answer;
    unsigned rack, bit;
    for (rack = 0; rack < 30; rack++) {
        unsigned place = rack % 15;
        if (rack >= 15) {
            place = place == first ? second : place == second ? first : place;
        }
        for (bit = 0; bit < 6; bit++) {
            unsigned at = 16 + 6 * rack + bit;
            racks[at / 8] |= (uint8_t)((place >> (5 - bit) & 1) << (7 - at % 8));
        }
    }
    expanded = wichteab_order_expand(racks, sizeof racks, full, sizeof full);
    expect(wichteab_number(expanded) == WICHTEAB_ACCEPTED, "the puzzle's order");
    answer = wichteab_one_vacancy(full, wichteab_expanded_length(expanded));
    expect(wichteab_number(answer) == WICHTEAB_ACCEPTED && wichteab_impossible(answer) == impossible, "the puzzle");
}

int main(void)
{
    size_t i;
    for (i = 0; i < sizeof cases / sizeof cases[0]; i++) {
        run(&cases[i]);
    }
    run_puzzle(13, 14, 1);
    run_puzzle(0, 7, 1);
    run_puzzle(3, 3, 0);
    return close_tests();
}
