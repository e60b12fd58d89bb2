/*
 * wichteab.h: orders, plans and timetables for floors of powered racks without aisles.
 *
 * A floor has positions, numbered from 0, and edges between pairs of them. Racks, numbered from 1, stand
 * on positions, at most one on each. An order gives a floor and each rack's start and goal; a plan moves
 * one rack at a time; a timetable moves several in a step. All three are byte strings, described under
 * "Records" below.
 *
 * The static library is target/staticlib/libcontroller.a, made by `tools/build`:
 *
 *     cc -I include program.c target/staticlib/libcontroller.a
 *
 * `make install` puts it beside the other libraries, as libwichteab.a:
 *
 *     cc program.c $(pkg-config --cflags --libs wichteab)
 *
 * From an order to a checked timetable it is three calls: wichteab_plan_make, wichteab_timetable_make and
 * wichteab_timetable_check. examples/delivery.c makes them; examples/screen.c shows which rack each move of a plan
 * takes; examples/season.c reports on a season. While a timetable is driven, a controller holds a picture of
 * the floor, a wichteab_floor, and calls wichteab_floor_open, wichteab_floor_read, wichteab_floor_run and
 * wichteab_floor_take_back on it; examples/controller.c does.
 *
 * What is proved: the functions under "Functions" are exported by the library. Each was proved to answer and
 * to write as described here for every input, to read and write only inside what it is lent, and to end. The
 * functions under "Helpers" are inline C in this header. They are tested, and not proved.
 *
 * This holds of every exported function:
 *
 *   Input      A byte string is passed as a pointer to its first byte and its length in bytes. Any bytes
 *              of any length may be passed: what is wrong with them is answered, never assumed. A pointer
 *              must not be NULL, not even with a length of 0, and must have that many bytes behind it.
 *   Ownership  All memory stays the caller's. Nothing is kept after the call, nothing is allocated, and
 *              there is no state between calls, so that several threads may call at once. The stack has to
 *              have room for small tables: 512 KiB are enough for every function but wichteab_plan_make and
 *              wichteab_plan_shorten, which take 1 MiB each.
 *   Output     The result is one number: an answer, taken apart by the functions under "Helpers", or of the
 *              two functions that say so a length. Bytes are written only to a parameter named `buffer`, `floor`
 *              or `racks`, and only where the answer is accepted: a record begins at the buffer's first byte, and
 *              the bytes behind the record stay as they were. wichteab_season_report writes the five numbers of
 *              `report` in the same way. A refusal changes no byte. What is written to must not overlap another
 *              argument.
 */
#ifndef WICHTEAB_H
#define WICHTEAB_H

#include <stddef.h>
#include <stdint.h>

#ifdef __cplusplus
extern "C" {
#endif

/*
 * Version
 *
 * Library and header come together and are of one version. The first number goes up where a caller may have
 * to change its code, the second where something was added (a function, a number), the third otherwise.
 *
 * What a caller of version 1 has to change: wichteab_plan_make writes plans of edition two (see "Records")
 * and asks for a longer buffer, which wichteab_plan_buffer_length gives; wichteab_plan_length takes the
 * edition. The moves of a plan are read by wichteab_plan_move, in either edition. Plans of edition one are read
 * as before, and wichteab_plan_convert writes a plan of edition two as one of edition one.
 *
 * Since version 2.1 a train has at most WICHTEAB_TRAIN_LONGEST moves. A timetable stored earlier with a longer one
 * is refused with 42; wichteab_timetable_make makes a new one of its plan.
 *
 * Since version 2.2 an order on whose floor a position has five or more edges is not planned: it is refused with 26.
 * Plans and timetables stored earlier for such floors are taken as before.
 *
 * Version 2.3 adds the live floor.
 *
 * Version 2.4 adds wichteab_season_report, with 46 and 47.
 *
 * Version 2.5 adds wichteab_dearest_carry, with 27 and 28.
 *
 * Version 2.6 adds wichteab_one_vacancy, with 29.
 *
 * What a caller of version 2 has to change: wichteab_plan_make takes 1 MiB of stack, where 512 KiB were enough, and
 * up to a fifth of a second on 64 positions, since a search beside the method looks for a shorter plan. Its
 * promises are as before; its plans are two to four times shorter.
 */
#define WICHTEAB_VERSION "3.0.0"
#define WICHTEAB_VERSION_MAJOR 3
#define WICHTEAB_VERSION_MINOR 0
#define WICHTEAB_VERSION_PATCH 0

/*
 * Records
 *
 * Fields are packed most significant bit first. A position takes 6 bits. A move takes 12: the position
 * left, then the position entered. A pad is zero bits up to the next byte.
 *
 *   Order      n (positions) in 7 bits, e (edges) in 8, m (racks) in 7, two spare zero bits; e edges, each
 *              lower position first, strictly ascending; m starts; m goals; pad.
 *              Its length is 3 + (3 * (e + m) + 1) / 2 bytes, with the division rounding down.
 *   Short order  model in 8 bits, m (racks) in 7, one zero bit; m starts; m goals; pad. It names the model of
 *              its floor, a grid whose positions run row by row, with edges between side neighbours: model
 *              1 is 2 rows by 3 columns, 2 is 3 by 4, 3 is 4 by 4, 4 is 4 by 5, 5 is 8 by 8.
 *              Its length is 2 + (3 * m + 1) / 2 bytes. wichteab_order_expand writes it out as an order.
 *   Plan       k (moves) in 22 bits, two spare bits, which tell the edition; k moves; pad.
 *              Edition one has the spare bits 00. Its length is 3 + (3 * k + 1) / 2 bytes; the pad has 0 bits
 *              where k is even, and 4 where it is odd.
 *              Edition two has the spare bits 01, and each move has 6 more bits at its end: the number of the
 *              rack that moves, minus 1. Its length is 3 + (9 * k + 3) / 4 bytes; the pad has 0, 6, 4 or 2 bits
 *              where k % 4 is 0, 1, 2 or 3.
 *              The spare bits 10 and 11 are no edition: a plan with them is measured as edition one (30) and
 *              then refused (31). Every function that takes a plan reads both editions. wichteab_plan_make and
 *              wichteab_dearest_carry write edition two, wichteab_plan_shorten the edition of the plan given,
 *              and wichteab_plan_convert the other one.
 *   Timetable  s (steps) in 22 bits, two spare zero bits; s steps. A step is one byte c, c moves ascending
 *              by position left, pad; c may be 0.
 *              A step's length is 1 + (3 * c + 1) / 2 bytes, and the timetable's is 3 and its steps'. The
 *              count c of the first step is byte 3; each next step begins where the one before it ends.
 *   Season     up to WICHTEAB_SEASON_MOST pairs of an order and a timetable, one after another. An order ends
 *              where its counts say and a timetable after its last step, whatever else is wrong with them; the
 *              next pair follows directly.
 *
 * A record is passed alone, from its first byte to its last: a length that is not the record's own is
 * refused with 10, 30 or 40. Where one record follows another, wichteab_order_length and
 * wichteab_timetable_length tell where the first one ends.
 */

/* The length of the longest order that there can be, in bytes. */
#define WICHTEAB_ORDER_LONGEST 576

/* How many moves a train may have, from its last rack to its leader. */
#define WICHTEAB_TRAIN_LONGEST 8

/* How many pairs a season may have. */
#define WICHTEAB_SEASON_MOST 65535

/* How many numbers a season report has. */
#define WICHTEAB_REPORT_NUMBERS 5

/* The parallelism of a season without steps: all ones, which no season's is. */
#define WICHTEAB_PARALLELISM_NONE UINT64_MAX

/*
 * Answers
 *
 * The low 8 bits of an answer are its number: 0 where the input is accepted, else one of the refusals
 * below, the lowest that applies (the first, where a function names an order of its own). The bits above
 * are, for a refusal, its place, and where the input is accepted what the function's own description says.
 *
 * Numbers may be added in later versions. A caller should treat a number that it does not know as a refusal.
 */
enum {
    WICHTEAB_ACCEPTED = 0,

    /* The order; place 0. */
    WICHTEAB_ORDER_LENGTH = 10,    /* it is under 3 bytes, or its length is not the one its counts give */
    WICHTEAB_ORDER_POSITIONS = 11, /* n is 0 or above 64 */
    WICHTEAB_ORDER_PADDING = 12,   /* a spare or pad bit is set */
    WICHTEAB_ORDER_EDGE = 13,      /* an edge has a position of n or more, is not lower first, or does not
                                      ascend */
    WICHTEAB_ORDER_RACK = 14,      /* a start or goal is n or more, or two racks share a start or a goal */

    /* The floor, judged for planning; place 0. */
    WICHTEAB_FLOOR_CROWDED = 20,         /* fewer than two positions are vacant: m + 2 is above n; on a ring, none
                                            is */
    WICHTEAB_FLOOR_NOT_BICONNECTED = 21, /* it has under 3 positions, is not connected, or falls apart when
                                            some one position is taken away */
    WICHTEAB_FLOOR_RING = 22,            /* no longer given: rings are planned */
    WICHTEAB_PLAN_BUFFER = 23,           /* the plan buffer is shorter than 18 * n * n * n + 3 bytes */
    WICHTEAB_FLOOR_ORDER = 24,           /* it is a ring, and the racks stand in another order round it at the
                                            goal, so that no plan exists; judged before 23 */
    WICHTEAB_FLOOR_SIDES = 26,           /* a position has five or more edges; judged before 23 */

    /* The floor, judged for its dearest carry; place 0. */
    WICHTEAB_FLOOR_NOT_CONNECTED = 27, /* some position has no way to some other */
    WICHTEAB_CARRY_BUFFER = 28,        /* the plan buffer cannot hold an edition-two plan of n - 1 moves */

    /* The floor, judged for one vacancy, before 21; place 0. */
    WICHTEAB_VACANCY_COUNT = 29, /* the number of vacant positions is not one */

    /* The plan; place 0 unless it is named. The first move that is not legal at its turn, or that names a wrong
       rack, decides, with the first of 32, 34, 35 and 36 that applies to it; all four come before 33. */
    WICHTEAB_PLAN_LENGTH = 30,      /* it is under 3 bytes, or its length is not the one k gives in its edition */
    WICHTEAB_PLAN_PADDING = 31,     /* its spare bits are 10 or 11, or a pad bit is set */
    WICHTEAB_PLAN_MOVE = 32,        /* a move has a position of n or more, or no edge joins its two. Place: the
                                       move, from 1 */
    WICHTEAB_PLAN_GOAL = 33,        /* no move is refused, and after the last one a rack is not at its goal. Place:
                                       the lowest such rack */
    WICHTEAB_PLAN_NO_RACK = 34,     /* no rack stands at the position that a move leaves. Place: the move */
    WICHTEAB_PLAN_OCCUPIED = 35,    /* the position that a move enters is occupied. Place: the move */
    WICHTEAB_PLAN_RACK = 36,        /* the rack that a move names is not the one that stands there; edition two
                                       only. Place: the move */
    WICHTEAB_SECOND_BUFFER = 37,    /* the buffer for the shortened plan is shorter than the plan given */
    WICHTEAB_CONVERTED_BUFFER = 38, /* the buffer for the converted plan is shorter than the plan's record in the
                                       other edition; judged last */

    /* The timetable; place 0 unless it is named. */
    WICHTEAB_TIMETABLE_LENGTH = 40,  /* it is under 3 bytes, a step runs past its end, or bytes are left over */
    WICHTEAB_TIMETABLE_PADDING = 41, /* a spare or pad bit is set */
    WICHTEAB_TIMETABLE_STEP = 42,    /* a step is not legal. Place: the first such step, from 1 */
    WICHTEAB_TIMETABLE_GOAL = 43,    /* every step is legal, and then a rack is not at its goal. Place: the
                                        lowest such rack */
    WICHTEAB_TIMETABLE_BUFFER = 44,  /* the timetable buffer is shorter than 3 * k + 3 bytes */
    WICHTEAB_STEP_NUMBER = 45,       /* step 0, or a step above s, was requested */

    /* The season; the place is the pair, from 1, and the earliest pair decides. */
    WICHTEAB_SEASON_CUT = 46,   /* the bytes end before this pair does */
    WICHTEAB_SEASON_PAIRS = 47, /* bytes follow the pair numbered 65,535, which is the place */

    /* The short order, tested in the order 50, 51, 14, 52; place 0. */
    WICHTEAB_SHORT_ORDER = 50,   /* its length, its spare bit or a pad bit is wrong */
    WICHTEAB_MODEL_UNKNOWN = 51, /* its model is not 1 to 5 */
    WICHTEAB_ORDER_BUFFER = 52,  /* the order buffer is shorter than the full order */

    /* The live floor; place 0. 60 comes before the numbers of wichteab_timetable_check, 61 and 62 after them. */
    WICHTEAB_FLOOR_RIGHT = 60,    /* the role has no right to this call, or the floor is not open */
    WICHTEAB_FLOOR_RUN = 61,      /* no step is left to run, or the lent step is not legal on the floor as it is */
    WICHTEAB_FLOOR_TAKE_BACK = 62 /* there is no step to take back, or the lent step, turned round, is not legal on
                                     the floor as it is */
};

/*
 * The live floor
 *
 * A picture of the floor while a timetable is driven: where the racks stand, and how many steps were run and not
 * taken back. The caller holds it, at first all zero, which is closed:
 *
 *     wichteab_floor floor = WICHTEAB_FLOOR_CLOSED;
 *
 * The functions below read and change it. Whatever it holds, they answer as described; who writes to it otherwise
 * has no promise but this. Each call names a role, and a role has the rights of those before it:
 *
 *     WICHTEAB_VIEWER       may open the floor and read it
 *     WICHTEAB_OPERATOR     may also run the next step
 *     WICHTEAB_SUPERVISOR   may also take the last step back
 *
 * Any other number has no right at all. Each call lends the order and the timetable again, and they are checked again.
 */
typedef struct wichteab_floor {
    uint8_t racks[64];  /* the rack at each position, 0 where there is none */
    uint32_t steps;     /* the steps run and not taken back */
    uint32_t positions; /* n of the order that it was opened with; 0 while it is closed */
} wichteab_floor;

#define WICHTEAB_FLOOR_CLOSED {{0}, 0, 0}

#define WICHTEAB_VIEWER 1
#define WICHTEAB_OPERATOR 2
#define WICHTEAB_SUPERVISOR 3

/*
 * Functions: exported and proved
 */

/*
 * wichteab_order_check: is this a well-formed order?
 *
 * Takes an order; it is only read. Accepted: the answer is 0. Refused: 10 to 14, place 0.
 * Time in proportion to the length that the order's counts give, at most 576 bytes.
 */
uint64_t wichteab_order_check(const uint8_t *order, size_t order_length);

/*
 * wichteab_floor_check: can this order be planned at all?
 *
 * Takes an order; it is only read. Accepted: the answer is 0, the floor is bi-connected, no position has more than
 * four edges, and at least two positions are vacant; or it is a ring, at least one is vacant, and the racks stand in
 * the same order round it at start and goal. Refused: 10 to 14, 20, 21, 24 and 26, place 0.
 */
uint64_t wichteab_floor_check(const uint8_t *order, size_t order_length);

/*
 * wichteab_order_expand: writes a short order out as the order that it stands for.
 *
 * Takes a short order, which is only read, and a buffer for the order; WICHTEAB_ORDER_LONGEST bytes are enough
 * for any. Accepted: wichteab_expanded_length gives the order's length, and the order is at the front of the
 * buffer, on its model's floor, with the same starts and goals. It is well formed, and wichteab_floor_check
 * never refuses it with 21, 24 or 26: with two vacancies it is planned. No two short orders give one order.
 * Refused: 50, 51, 14 and 52, the first that applies in this order, place 0.
 */
uint64_t wichteab_order_expand(const uint8_t *short_order, size_t short_order_length, uint8_t *buffer,
                               size_t buffer_length);

/*
 * wichteab_one_vacancy: is this order hopeless, with its one vacant position?
 *
 * Takes an order with exactly one vacant position on a bi-connected floor, which may be a ring; it is only
 * read. Accepted: wichteab_impossible gives 1 where the positions fall into two colours, each edge joining both,
 * and the change from start to goal, as a permutation of all positions with the vacancy included, is odd and the
 * vacancy keeps its colour, or it is even and the colour changes. Then no list of moves, of whatever length,
 * brings every rack to its goal. In all other cases it gives 0, not judged: there may be a plan or none.
 * Refused: 10 to 14, then 29, then 21, the first that applies in this order, place 0.
 */
uint64_t wichteab_one_vacancy(const uint8_t *order, size_t order_length);

/*
 * wichteab_plan_make: writes a plan that brings every rack of the order to its goal.
 *
 * Takes an order, which is only read, and a buffer of at least 18 * n * n * n + 3 bytes (see
 * wichteab_plan_buffer_length), whatever it holds. Every order that wichteab_floor_check accepts is planned:
 * with two vacancies or more, on a bi-connected floor of at most four edges to a position that is no ring, every
 * arrangement is reached from every other; on a ring with a vacancy, every one with the racks in the same order
 * round it. Accepted:
 * wichteab_plan_moves gives the number of moves, at most 8 * n * n * n, and 0 where each start is its goal;
 * the plan is at the front of the buffer, in edition two, wichteab_plan_length(2, moves) bytes long, and
 * wichteab_plan_check accepts it with these moves. Refused: as wichteab_floor_check, and then 23, place 0; the
 * buffer is as it was.
 *
 * A method that never fails makes the plan. Beside it a search, within a fixed budget, looks for a plan whose
 * timetable has fewer steps, or as many and fewer moves; it is written instead only if it passes the plan check. Which
 * plan is made depends on the order alone. On 64 positions it takes up to a fifth of a second.
 */
uint64_t wichteab_plan_make(const uint8_t *order, size_t order_length, uint8_t *buffer,
                            size_t buffer_length);

/*
 * wichteab_plan_check: does this plan bring every rack of the order to its goal?
 *
 * Takes an order, on a floor of any shape, and a plan of either edition; both are only read. A move is legal if
 * both positions are below n, an edge joins them, the first holds a rack and the second is vacant. Accepted:
 * every move is legal at its turn and in edition two names the rack that it moves, after the last one every
 * rack stands at its goal, and wichteab_plan_moves gives the number of moves. Refused: 10 to 14 and 30 to 36.
 * The first move that is not legal or names another rack is refused with 32, 34, 35 or 36, by the first of
 * these tests that it fails, before 33; their place is the move, that of 33 the rack.
 */
uint64_t wichteab_plan_check(const uint8_t *order, size_t order_length, const uint8_t *plan,
                             size_t plan_length);

/*
 * wichteab_plan_shorten: takes the moves that cancel out of a plan.
 *
 * Takes an order and a plan of either edition, which are only read, and a second buffer at least as long as the
 * plan, whatever it holds. Two moves cancel if the later undoes the earlier for the same rack and no move between
 * them leaves or enters either position. The cancelling pair whose later move comes first is removed, again and
 * again until none is left. Accepted: wichteab_plan_moves gives the number of moves that are left, and the
 * shortened plan is at the front of the buffer, in the edition of the plan given,
 * wichteab_plan_length(wichteab_plan_edition(plan), moves) bytes long; wichteab_plan_check accepts it with these
 * moves, and shortened once more it stays as it is. Refused: as wichteab_plan_check, and then 37, place 0; the
 * buffer is as it was.
 */
uint64_t wichteab_plan_shorten(const uint8_t *order, size_t order_length, const uint8_t *plan,
                               size_t plan_length, uint8_t *buffer, size_t buffer_length);

/*
 * wichteab_plan_convert: writes a plan in the other edition.
 *
 * Takes an order and a plan of either edition, which are only read, and a buffer at least as long as the plan's
 * record in the other edition (see wichteab_converted_length), whatever it holds. Accepted: wichteab_plan_moves
 * gives the number of moves, which is the plan's, and the same moves are at the front of the buffer in the other
 * edition, wichteab_converted_length(plan, plan_length) bytes long; edition two names for each move the rack that
 * it moves. wichteab_plan_check accepts what was written with the same moves, and converted back it is the plan
 * given, byte for byte. Refused: as wichteab_plan_check, and then 38, place 0; the buffer is as it was.
 */
uint64_t wichteab_plan_convert(const uint8_t *order, size_t order_length, const uint8_t *plan,
                               size_t plan_length, uint8_t *buffer, size_t buffer_length);

/*
 * wichteab_dearest_carry: what is the worst trip of one rack alone on this floor?
 *
 * Takes an order, which is only read, and a buffer that can hold an edition-two plan of n - 1 moves (see
 * wichteab_carry_buffer_length), whatever it holds. The order has to be well formed; its own racks are set aside, and
 * its floor may have any shape. For one rack alone, of all pairs of a start and a goal those are taken whose shortest
 * plan is longest: the lowest start, then the lowest goal. Accepted: wichteab_carry_start, wichteab_carry_goal and
 * wichteab_carry_moves give the two and the count of moves, at most n - 1, and a shortest plan is at the front of the
 * buffer, in edition two, wichteab_plan_length(2, moves) bytes long: of several, the one that enters the lower position
 * at the first move where they differ. For the order of one rack from that start to that goal on the same floor
 * wichteab_plan_check accepts it, and no shorter plan. On a floor of one position it is 0 to 0 with no moves. Refused:
 * 10 to 14, then 27, then 28, place 0; the buffer is as it was.
 */
uint64_t wichteab_dearest_carry(const uint8_t *order, size_t order_length, uint8_t *buffer, size_t buffer_length);

/*
 * wichteab_timetable_check: does this timetable bring every rack of the order to its goal?
 *
 * Takes an order, on a floor of any shape, and a timetable; both are only read. A step is legal if its moves
 * ascend strictly by position left; both positions of each are below n and joined by an edge; each position
 * left holds a rack; no position is entered twice; and each move belongs to a train with a leader: followed
 * from rack to rack, its chain ends at a move into a position that was vacant before the step, and has at most
 * WICHTEAB_TRAIN_LONGEST moves from the mover to the leader, both counted. A step may have several trains.
 * Accepted: every step is legal at its turn, after the last one every rack stands at its goal, and
 * wichteab_timetable_steps and wichteab_timetable_moves give the counts. Refused: 10 to 14 and 40 to 43; the
 * place of 42 is the step, that of 43 the rack.
 */
uint64_t wichteab_timetable_check(const uint8_t *order, size_t order_length, const uint8_t *timetable,
                                  size_t timetable_length);

/*
 * wichteab_timetable_make: writes the timetable of a plan.
 *
 * Takes an order and a plan of either edition, which are only read, and a buffer of at least 3 bytes more than
 * three for each move of the plan (see wichteab_timetable_buffer_length), whatever it holds. The moves are taken
 * in plan order. A move's step is the greater of one more than the step of the same rack's previous move, and
 * the step of the latest earlier move that left the position now entered; with neither, it is 1. A move that
 * would be ninth in its train goes one step later, where it leads. Accepted: wichteab_timetable_steps gives the
 * greatest step, or 0 with no moves; the timetable is at the front of the buffer, as long as
 * wichteab_timetable_length says, and wichteab_timetable_check accepts it with these steps and the plan's moves.
 * Both editions of a plan give one timetable. Refused: as wichteab_plan_check, and then 44, place 0; the buffer
 * is as it was.
 */
uint64_t wichteab_timetable_make(const uint8_t *order, size_t order_length, const uint8_t *plan,
                                 size_t plan_length, uint8_t *buffer, size_t buffer_length);

/*
 * wichteab_timetable_step: finds one step of a timetable.
 *
 * Takes a timetable, which is only read, and the number of a step, from 1. Accepted: wichteab_step_offset
 * and wichteab_step_length give the part of the timetable that is this step, its count byte first and its
 * pad last. No order is taken, so the step is not judged: wichteab_timetable_check does that. Refused: 40,
 * 41 and 45, place 0. Each call reads the whole timetable: who walks through all its steps finds the next
 * one behind the last (see "Records").
 */
uint64_t wichteab_timetable_step(const uint8_t *timetable, size_t timetable_length, uint64_t number);

/*
 * wichteab_season_report: how many pairs of a season are accepted, and how many racks moved at once?
 *
 * Takes a season of any length, which is only read, and an array of five numbers, whatever they are. Each pair is
 * judged as wichteab_timetable_check judges it; one that is whole but refused is counted and passed over. Accepted:
 * the answer is 0, and report[0] to report[4] are the pairs accepted, the pairs refused, the steps, the moves and the
 * parallelism. Steps and moves are the exact totals over the accepted pairs; the parallelism is moves divided by
 * steps, in thousandths rounded down, and with no steps WICHTEAB_PARALLELISM_NONE. No bytes at all are a season of
 * no pairs: 0, 0, 0, 0 and none. Refused: 46 and 47, place: the pair; the array is as it was. A season that was cut
 * between two pairs is a shorter season, and nothing tells: a caller that reads it from a file should see that it
 * has read all of it. Each byte is read a bounded number of times, and nothing is kept but the totals.
 */
uint64_t wichteab_season_report(const uint8_t *bytes, size_t length, uint64_t report[WICHTEAB_REPORT_NUMBERS]);

/*
 * wichteab_floor_open: opens the live floor.
 *
 * Takes a floor, whatever it holds, a role, an order and a timetable; order and timetable are only read. Accepted: the
 * floor is open, each rack stands at its start, and wichteab_floor_steps gives 0. A floor that was open is replaced.
 * Refused: 60, then as wichteab_timetable_check; the floor is as it was, and open if it was.
 */
uint64_t wichteab_floor_open(wichteab_floor *floor, uint32_t role, const uint8_t *order, size_t order_length,
                             const uint8_t *timetable, size_t timetable_length);

/*
 * wichteab_floor_read: shows the live floor.
 *
 * Takes a floor, which is only read, a role, an order and a timetable, and a table of 64 bytes. Accepted: the table has
 * the rack at each position, 0 where there is none, and wichteab_floor_steps gives the steps run and not taken back.
 * Refused: 60, then as wichteab_timetable_check; the table is as it was.
 */
uint64_t wichteab_floor_read(const wichteab_floor *floor, uint32_t role, const uint8_t *order, size_t order_length,
                             const uint8_t *timetable, size_t timetable_length, uint8_t racks[64]);

/*
 * wichteab_floor_run: runs the next step.
 *
 * Takes a floor, a role, an order and a timetable. The next step is the one of the lent timetable whose number is one
 * more than the floor's steps. It is legal by the lent order's floor, as wichteab_timetable_check has it, where the
 * racks now stand; naming a position that the floor was not opened with it is not legal. Accepted: its racks have moved,
 * and wichteab_floor_steps gives the steps, one more than before. Refused: 60, then as wichteab_timetable_check, then
 * 61; the floor is as it was. With the order and timetable that the floor was opened with, 61 is given only where no
 * step is left.
 */
uint64_t wichteab_floor_run(wichteab_floor *floor, uint32_t role, const uint8_t *order, size_t order_length,
                            const uint8_t *timetable, size_t timetable_length);

/*
 * wichteab_floor_take_back: takes the last step back.
 *
 * Takes a floor, a role, an order and a timetable. The last step is the one of the lent timetable whose number is the
 * floor's steps. Its moves, each turned round and then put in ascending order, have to be a legal step where the racks
 * now stand, as for wichteab_floor_run. Accepted: its racks have moved back, and wichteab_floor_steps gives the steps,
 * one fewer than before. Refused: 60, then as wichteab_timetable_check, then 62; the floor is as it was. With the order
 * and timetable that the floor was opened with, 62 is given only where no step was run.
 */
uint64_t wichteab_floor_take_back(wichteab_floor *floor, uint32_t role, const uint8_t *order, size_t order_length,
                                  const uint8_t *timetable, size_t timetable_length);

/*
 * wichteab_order_length: where does the order end that these bytes begin with?
 *
 * Takes any bytes; they are only read, the first three at most. Returns a length, no answer: that of the
 * order, by its counts alone, or 0 where the bytes end before it does. Nothing else is judged.
 */
uint64_t wichteab_order_length(const uint8_t *bytes, size_t length);

/*
 * wichteab_timetable_length: where does the timetable end that these bytes begin with?
 *
 * Takes any bytes; they are only read. Returns a length, no answer: that of the timetable, by its step count
 * and its steps' count bytes alone, or 0 where the bytes end before it does. Nothing else is judged. Given
 * the buffer that wichteab_timetable_make has written to, it tells how long the timetable is.
 */
uint64_t wichteab_timetable_length(const uint8_t *bytes, size_t length);

/*
 * Helpers: inline C, tested and not proved
 */

/* The answer's number: 0 if the input is accepted, else the refusal. */
static inline uint32_t wichteab_number(uint64_t answer)
{
    return (uint32_t)(answer & 0xFF);
}

/* A refusal's place: a move, a step, a rack or a pair, each counted from 1, or 0 where the number names none. */
static inline uint32_t wichteab_place(uint64_t answer)
{
    return (uint32_t)(answer >> 8);
}

/* Of wichteab_order_expand, accepted: the order's length in bytes. */
static inline size_t wichteab_expanded_length(uint64_t answer)
{
    return (size_t)(answer >> 8);
}

/* Of wichteab_one_vacancy, accepted: 1 for impossible, 0 for not judged. */
static inline uint32_t wichteab_impossible(uint64_t answer)
{
    return (uint32_t)(answer >> 8);
}

/* Of wichteab_plan_check, wichteab_plan_make, wichteab_plan_shorten or wichteab_plan_convert, accepted: the plan's
   moves. */
static inline uint32_t wichteab_plan_moves(uint64_t answer)
{
    return (uint32_t)(answer >> 8);
}

/* Of wichteab_dearest_carry, accepted: the start. */
static inline uint32_t wichteab_carry_start(uint64_t answer)
{
    return (uint32_t)(answer >> 8 & 0xFF);
}

/* Of wichteab_dearest_carry, accepted: the goal. */
static inline uint32_t wichteab_carry_goal(uint64_t answer)
{
    return (uint32_t)(answer >> 16 & 0xFF);
}

/* Of wichteab_dearest_carry, accepted: the moves of the plan that was written. */
static inline uint32_t wichteab_carry_moves(uint64_t answer)
{
    return (uint32_t)(answer >> 24);
}

/* Of wichteab_timetable_check or wichteab_timetable_make, accepted: the timetable's steps. */
static inline uint32_t wichteab_timetable_steps(uint64_t answer)
{
    return (uint32_t)(answer >> 8 & 0x3FFFFF);
}

/* Of wichteab_timetable_check, accepted: the moves of all steps. */
static inline uint32_t wichteab_timetable_moves(uint64_t answer)
{
    return (uint32_t)(answer >> 30);
}

/* Of the four functions on the live floor, accepted: the steps run and not taken back. */
static inline uint32_t wichteab_floor_steps(uint64_t answer)
{
    return (uint32_t)(answer >> 8);
}

/* Of wichteab_timetable_step, accepted: the step's first byte, as an offset in the timetable. */
static inline size_t wichteab_step_offset(uint64_t answer)
{
    return (size_t)(answer >> 24);
}

/* Of wichteab_timetable_step, accepted: the step's length in bytes. */
static inline size_t wichteab_step_length(uint64_t answer)
{
    return (size_t)(answer >> 8 & 0xFFFF);
}

/* Of a season report, accepted: the pairs accepted. */
static inline uint64_t wichteab_report_accepted(const uint64_t report[WICHTEAB_REPORT_NUMBERS])
{
    return report[0];
}

/* The pairs refused. */
static inline uint64_t wichteab_report_refused(const uint64_t report[WICHTEAB_REPORT_NUMBERS])
{
    return report[1];
}

/* The steps of the accepted pairs. */
static inline uint64_t wichteab_report_steps(const uint64_t report[WICHTEAB_REPORT_NUMBERS])
{
    return report[2];
}

/* The moves of the accepted pairs. */
static inline uint64_t wichteab_report_moves(const uint64_t report[WICHTEAB_REPORT_NUMBERS])
{
    return report[3];
}

/* Moves divided by steps, in thousandths; with no steps WICHTEAB_PARALLELISM_NONE. */
static inline uint64_t wichteab_report_parallelism(const uint64_t report[WICHTEAB_REPORT_NUMBERS])
{
    return report[4];
}

/* What a refusal's number speaks of: "order", "floor", "plan" or "timetable"; "other" for any other number. */
static inline const char *wichteab_family(uint32_t number)
{
    switch (number / 10) {
    case 1: return "order";
    case 2: return "floor";
    case 3: return "plan";
    case 4: return "timetable";
    default: return "other";
    }
}

/* What a number means, as a sentence for the person who has to act on it. */
static inline const char *wichteab_reason(uint32_t number)
{
    switch (number) {
    case WICHTEAB_ACCEPTED:
        return "Accepted.";
    case WICHTEAB_ORDER_LENGTH:
        return "The order was cut short, or other bytes follow it: its length is not the one its counts give.";
    case WICHTEAB_ORDER_POSITIONS:
        return "The order has no position, or more than 64.";
    case WICHTEAB_ORDER_PADDING:
        return "A spare or pad bit of the order is set; all of them have to be 0.";
    case WICHTEAB_ORDER_EDGE:
        return "An edge of the order names a position that the floor does not have, does not have its lower "
               "position first, or does not come after the edge before it.";
    case WICHTEAB_ORDER_RACK:
        return "A start or goal of the order is no position of the floor, or two racks share one.";
    case WICHTEAB_FLOOR_CROWDED:
        return "Too many racks stand on the floor: at least two of its positions have to be vacant, on a ring one.";
    case WICHTEAB_FLOOR_NOT_BICONNECTED:
        return "The floor hangs together by one position, or not at all: it has to stay connected when any one "
               "position is taken away.";
    case WICHTEAB_FLOOR_RING:
        return "The floor is a ring. This number is no longer given.";
    case WICHTEAB_PLAN_BUFFER:
        return "The plan buffer is too short: n positions need 18 * n * n * n + 3 bytes.";
    case WICHTEAB_FLOOR_ORDER:
        return "The racks stand in another order round the ring at the goal: no moves lead there.";
    case WICHTEAB_FLOOR_SIDES:
        return "A position of the floor has five or more edges: a rack has four sides, so no position may have "
               "more than four.";
    case WICHTEAB_FLOOR_NOT_CONNECTED:
        return "The floor is not connected: a rack at some position cannot be brought to some other.";
    case WICHTEAB_CARRY_BUFFER:
        return "The plan buffer is too short: it has to hold a plan of edition two with n - 1 moves.";
    case WICHTEAB_VACANCY_COUNT:
        return "Just one position of the floor has to be vacant for this question.";
    case WICHTEAB_PLAN_LENGTH:
        return "The plan was cut short, or other bytes follow it: its length is not the one its count of moves "
               "gives in its edition.";
    case WICHTEAB_PLAN_PADDING:
        return "The spare bits of the plan are those of no edition, or a pad bit of it is set.";
    case WICHTEAB_PLAN_MOVE:
        return "This move of the plan names a position that the floor does not have, or no edge joins its two "
               "positions.";
    case WICHTEAB_PLAN_GOAL:
        return "This rack is not at its goal after the plan.";
    case WICHTEAB_PLAN_NO_RACK:
        return "This move of the plan leaves a position where no rack stands at its turn.";
    case WICHTEAB_PLAN_OCCUPIED:
        return "This move of the plan enters a position where another rack stands at its turn.";
    case WICHTEAB_PLAN_RACK:
        return "This move of the plan names another rack than the one that it moves.";
    case WICHTEAB_SECOND_BUFFER:
        return "The buffer for the shortened plan is too short: it has to be as long as the plan given.";
    case WICHTEAB_CONVERTED_BUFFER:
        return "The buffer for the converted plan is too short for the plan in the other edition.";
    case WICHTEAB_TIMETABLE_LENGTH:
        return "The timetable was cut short, or other bytes follow it: its length is not the one its counts "
               "give.";
    case WICHTEAB_TIMETABLE_PADDING:
        return "A spare or pad bit of the timetable is set; all of them have to be 0.";
    case WICHTEAB_TIMETABLE_STEP:
        return "This step of the timetable is not legal: its moves do not ascend, do not follow edges, leave a "
               "vacant position, meet in one position, follow each other with no leader into a vacant one, or "
               "make a train of more than 8.";
    case WICHTEAB_TIMETABLE_GOAL:
        return "This rack is not at its goal after the timetable.";
    case WICHTEAB_TIMETABLE_BUFFER:
        return "The timetable buffer is too short: a plan of k moves needs 3 * k + 3 bytes.";
    case WICHTEAB_STEP_NUMBER:
        return "The timetable has no step of this number; its steps are counted from 1.";
    case WICHTEAB_SEASON_CUT:
        return "The bytes of the season end inside this pair of order and timetable: no totals are given.";
    case WICHTEAB_SEASON_PAIRS:
        return "Bytes follow pair 65,535 of the season, and a season has no more pairs: no totals are given.";
    case WICHTEAB_SHORT_ORDER:
        return "The short order was cut short, other bytes follow it, or a spare or pad bit of it is set.";
    case WICHTEAB_MODEL_UNKNOWN:
        return "The short order names a floor model that is not sold.";
    case WICHTEAB_ORDER_BUFFER:
        return "The buffer for the order is too short for the full order.";
    case WICHTEAB_FLOOR_RIGHT:
        return "The role has no right to this call, or the live floor has not been opened.";
    case WICHTEAB_FLOOR_RUN:
        return "No step is left to run, or the next one is not legal where the racks now stand.";
    case WICHTEAB_FLOOR_TAKE_BACK:
        return "There is no step to take back, or the last one cannot be taken back where the racks now stand.";
    default:
        return "Refused, for a reason that this header does not know.";
    }
}

/* The edition of a plan of at least 3 bytes: 2 if its spare bits are 01, else 1. */
static inline uint32_t wichteab_plan_edition(const uint8_t *plan)
{
    return (plan[2] & 3) == 1 ? 2 : 1;
}

/* The length of a plan of this edition, 1 or 2, and so many moves. */
static inline size_t wichteab_plan_length(uint32_t edition, uint32_t moves)
{
    return edition == 2 ? 3 + (9 * (size_t)moves + 3) / 4 : 3 + (3 * (size_t)moves + 1) / 2;
}

/*
 * The length that wichteab_plan_convert asks of its buffer and writes: that of the plan's record in the other
 * edition. The plan may be one that is not accepted: only its first 3 bytes are read, for count and edition.
 * It is 0 where there are fewer; the plan is refused then.
 */
static inline size_t wichteab_converted_length(const uint8_t *plan, size_t plan_length)
{
    if (plan_length < 3) {
        return 0;
    }
    return wichteab_plan_length(3 - wichteab_plan_edition(plan),
                                (uint32_t)plan[0] << 14 | (uint32_t)plan[1] << 6 | (uint32_t)plan[2] >> 2);
}

/*
 * The length that wichteab_plan_make asks of its buffer, for an order of so many positions. It is that of the
 * longest plan which it may write, of 8 * n * n * n moves.
 */
static inline size_t wichteab_plan_buffer_length(uint32_t positions)
{
    return 18 * (size_t)positions * positions * positions + 3;
}

/* The length that wichteab_dearest_carry asks of its buffer, for an order of so many positions: that of a plan of one
   move fewer. It is 3 for none; the order is refused then. 145 bytes are enough for any order. */
static inline size_t wichteab_carry_buffer_length(uint32_t positions)
{
    return wichteab_plan_length(2, positions > 0 ? positions - 1 : 0);
}

/* The length that wichteab_timetable_make asks of its buffer, for a plan of so many moves. */
static inline size_t wichteab_timetable_buffer_length(uint32_t moves)
{
    return 3 * (size_t)moves + 3;
}

/*
 * The functions below read accepted records: they test nothing. Moves are counted from 1, as places and
 * steps are.
 */

/* The positions of an order: its n. */
static inline uint32_t wichteab_order_positions(const uint8_t *order)
{
    return order[0] >> 1;
}

/* A move: the rack at the position left goes to the position entered. */
struct wichteab_move {
    uint8_t left;
    uint8_t entered;
};

/* The move of this number in a list of moves of 12 bits: what follows the third byte of a plan of edition one, or
   a step's first. */
static inline struct wichteab_move wichteab_listed_move(const uint8_t *list, uint32_t number)
{
    const uint8_t *at = list + (number - 1) / 2 * 3 + (number - 1) % 2;
    uint32_t both = (uint32_t)at[0] << 8 | at[1];
    uint32_t bits = number % 2 == 1 ? both >> 4 : both & 0xFFF;
    struct wichteab_move move;
    move.left = (uint8_t)(bits >> 6);
    move.entered = (uint8_t)(bits & 63);
    return move;
}

/* The 18 bits of a move in a plan of edition two. Four moves take 9 bytes, and each of them lies in 3. */
static inline uint32_t wichteab_move_with_rack(const uint8_t *plan, uint32_t number)
{
    uint32_t of_four = (number - 1) % 4;
    const uint8_t *at = plan + 3 + (number - 1) / 4 * 9 + 2 * of_four;
    uint32_t three = (uint32_t)at[0] << 16 | (uint32_t)at[1] << 8 | at[2];
    return three >> (6 - 2 * of_four) & 0x3FFFF;
}

/* A plan's move of this number, from 1 to the plan's moves, in either edition. */
static inline struct wichteab_move wichteab_plan_move(const uint8_t *plan, uint32_t number)
{
    struct wichteab_move move;
    uint32_t bits;
    if (wichteab_plan_edition(plan) == 1) {
        return wichteab_listed_move(plan + 3, number);
    }
    bits = wichteab_move_with_rack(plan, number);
    move.left = (uint8_t)(bits >> 12);
    move.entered = (uint8_t)(bits >> 6 & 63);
    return move;
}

/* The rack that a plan names for its move of this number, from 1; 0 in edition one, which names none. */
static inline uint32_t wichteab_plan_rack(const uint8_t *plan, uint32_t number)
{
    return wichteab_plan_edition(plan) == 2 ? (wichteab_move_with_rack(plan, number) & 63) + 1 : 0;
}

/* The moves of a step: its count c. The step begins at wichteab_step_offset in its timetable. */
static inline uint32_t wichteab_step_moves(const uint8_t *step)
{
    return step[0];
}

/* A step's move of this number, from 1 to wichteab_step_moves. */
static inline struct wichteab_move wichteab_step_move(const uint8_t *step, uint32_t number)
{
    return wichteab_listed_move(step + 1, number);
}

#ifdef __cplusplus
}
#endif

#endif
