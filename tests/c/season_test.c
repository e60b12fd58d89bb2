/* The season report called from C: the totals of accepted pairs, refused pairs passed over, bytes cut at every place, the most pairs and
   one more; and what stands in the lent numbers afterwards. */
#include <stdlib.h>
#include <string.h>

#include "expect.h"
#include "wichteab.h"

/* The case book's order with its timetable: 0>1 with 3>2, then 1>3 with 2>0. */
static const uint8_t pair[] = {0x08, 0x0A, 0x08, 0x00, 0x10, 0x02, 0x04, 0x20, 0x43, 0x08, 0x30, 0x03, 0x0C, 0x00, /* order */
                               0x00, 0x00, 0x08, 0x02, 0x00, 0x10, 0xC2, 0x02, 0x04, 0x30, 0x80};                  /* timetable */

/* The shortest pair: one position, no edge, no rack and no step. */
static const uint8_t shortest[] = {0x02, 0x00, 0x00, 0x00, 0x00, 0x00};

/* What the lent numbers hold before a call. */
#define BEFORE UINT64_C(0x5555555555555555)

/* The five numbers, with one before and one behind them that no call may change. */
static uint64_t lent[WICHTEAB_REPORT_NUMBERS + 2];
static uint64_t *const report = lent + 1;

static uint64_t call(const uint8_t *bytes, size_t length)
{
    uint64_t answer;
    size_t i;
    for (i = 0; i < WICHTEAB_REPORT_NUMBERS + 2; i++) {
        lent[i] = BEFORE;
    }
    answer = wichteab_season_report(bytes, length, report);
    expect(lent[0] == BEFORE && lent[WICHTEAB_REPORT_NUMBERS + 1] == BEFORE, "nothing beside the five numbers is written");
    return answer;
}

static void reported(const uint8_t *bytes, size_t length, const uint64_t numbers[WICHTEAB_REPORT_NUMBERS], const char *name)
{
    expect(call(bytes, length) == WICHTEAB_ACCEPTED, name);
    expect(memcmp(report, numbers, WICHTEAB_REPORT_NUMBERS * sizeof *numbers) == 0, "its five numbers");
}

static void refused_at(const uint8_t *bytes, size_t length, uint32_t number, uint32_t place, const char *name)
{
    uint64_t answer = call(bytes, length);
    size_t i;
    expect(wichteab_number(answer) == number && wichteab_place(answer) == place, name);
    for (i = 0; i < WICHTEAB_REPORT_NUMBERS; i++) {
        expect(report[i] == BEFORE, "a refusal changes no number");
    }
}

static void run_reports(void)
{
    static const uint64_t none[] = {0, 0, 0, 0, WICHTEAB_PARALLELISM_NONE};
    static const uint64_t still[] = {2, 0, 0, 0, WICHTEAB_PARALLELISM_NONE};
    static const uint64_t one[] = {1, 0, 2, 4, 2000};
    static const uint64_t passed_over[] = {2, 2, 4, 8, 2000};
    static const uint64_t without_positions[] = {1, 1, 2, 4, 2000};
    static const uint64_t rounded[] = {2, 0, 3, 5, 1666};
    static const uint64_t waited[] = {1, 0, 3, 0, 0};
    /* an order without positions is whole, and its timetable is found: one step, 0>1 */
    static const uint8_t no_positions[] = {0x00, 0x00, 0x00, 0x00, 0x00, 0x04, 0x01, 0x00, 0x10};
    /* two positions, a rack from 0 to 1, and the step 0>1 */
    static const uint8_t single[] = {0x04, 0x02, 0x04, 0x00, 0x10, 0x01, 0x00, 0x00, 0x04, 0x01, 0x00, 0x10};
    /* one position and three steps without moves */
    static const uint8_t waiting[] = {0x02, 0x00, 0x00, 0x00, 0x00, 0x0C, 0x00, 0x00, 0x00};
    uint8_t season[4 * sizeof pair];
    reported(pair, 0, none, "no bytes are a season of no pairs");
    memcpy(season, shortest, sizeof shortest);
    memcpy(season + sizeof shortest, shortest, sizeof shortest);
    reported(season, 2 * sizeof shortest, still, "pairs without steps");
    reported(pair, sizeof pair, one, "the case book's pair");
    expect(wichteab_report_accepted(report) == 1 && wichteab_report_refused(report) == 0, "the pairs, by name");
    expect(wichteab_report_steps(report) == 2 && wichteab_report_moves(report) == 4, "steps and moves, by name");
    expect(wichteab_report_parallelism(report) == 2000, "the parallelism, by name");
    /* the second pair has a spare bit of its order set (12), the third a move that no edge has (42) */
    memcpy(season, pair, sizeof pair);
    memcpy(season + sizeof pair, pair, sizeof pair);
    memcpy(season + 2 * sizeof pair, pair, sizeof pair);
    memcpy(season + 3 * sizeof pair, pair, sizeof pair);
    season[sizeof pair + 2] |= 1;
    season[2 * sizeof pair + 19] = 0x30;
    reported(season, 4 * sizeof pair, passed_over, "refused pairs are counted and passed over");
    memcpy(season, no_positions, sizeof no_positions);
    memcpy(season + sizeof no_positions, pair, sizeof pair);
    reported(season, sizeof no_positions + sizeof pair, without_positions, "an order with n = 0 is whole");
    memcpy(season, pair, sizeof pair);
    memcpy(season + sizeof pair, single, sizeof single);
    reported(season, sizeof pair + sizeof single, rounded, "5 moves in 3 steps are 1666 thousandths, rounded down");
    reported(waiting, sizeof waiting, waited, "steps without moves have a parallelism of 0");
}

/* Cut inside a pair it is 46 with the pair's number; cut between two, a shorter season. */
static void run_cuts(void)
{
    static const uint64_t one[] = {1, 0, 2, 4, 2000};
    uint8_t season[2 * sizeof pair];
    size_t end;
    memcpy(season, pair, sizeof pair);
    memcpy(season + sizeof pair, pair, sizeof pair);
    for (end = 1; end < sizeof season; end++) {
        if (end == sizeof pair) {
            reported(season, end, one, "a cut between two pairs is a shorter season");
        } else {
            refused_at(season, end, WICHTEAB_SEASON_CUT, end < sizeof pair ? 1 : 2, "a cut inside a pair is 46");
        }
    }
    /* a refused pair is passed over, and the cut in the next one decides */
    season[2] |= 1;
    refused_at(season, sizeof season - 1, WICHTEAB_SEASON_CUT, 2, "a cut behind a refused pair is 46");
}

static void run_most(void)
{
    static const uint64_t most[] = {WICHTEAB_SEASON_MOST, 0, 0, 0, WICHTEAB_PARALLELISM_NONE};
    size_t length = (WICHTEAB_SEASON_MOST + 1) * sizeof shortest;
    uint8_t *season = malloc(length);
    size_t i;
    if (season == NULL) {
        expect(0, "memory");
        return;
    }
    for (i = 0; i < length; i += sizeof shortest) {
        memcpy(season + i, shortest, sizeof shortest);
    }
    length -= sizeof shortest;
    reported(season, length, most, "65,535 pairs are reported");
    refused_at(season, length - 1, WICHTEAB_SEASON_CUT, WICHTEAB_SEASON_MOST, "a cut in the last is 46 with its number");
    refused_at(season, length + 1, WICHTEAB_SEASON_PAIRS, WICHTEAB_SEASON_MOST, "a byte behind it is 47 with its number");
    refused_at(season, length + sizeof shortest, WICHTEAB_SEASON_PAIRS, WICHTEAB_SEASON_MOST, "and so is one pair more");
    free(season);
}

int main(void)
{
    run_reports();
    run_cuts();
    run_most();
    return close_tests();
}
