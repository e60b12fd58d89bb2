/*
 * The header says that 512 KiB of stack are enough for every exported function but wichteab_plan_make and
 * wichteab_plan_shorten, which take 1 MiB each. Each one runs here on a thread that has just that, below it a page that may not be touched, on floors of 64
 * positions: the 8 by 8 grid and a ring with one handle, both with 62 racks, and a train of 63. It has to give what it
 * gives on the main thread. How much of the stack was touched is printed; some KiB of it are the thread's own start.
 */
#define _DEFAULT_SOURCE
#include <pthread.h>
#include <stdlib.h>
#include <string.h>
#include <sys/mman.h>

#include "expect.h"
#include "wichteab.h"

#define STACK (512 * 1024)
#define LARGER_STACK (1024 * 1024)
#define GUARD (64 * 1024)
#define POSITIONS 64
#define MOST_MOVES (8 * POSITIONS * POSITIONS * POSITIONS)

/* A record written from its fields, most significant bit first. */
struct record {
    uint8_t bytes[WICHTEAB_ORDER_LONGEST];
    size_t bits;
};

static struct record order;
static size_t order_length;
static uint8_t plan[18 * POSITIONS * POSITIONS * POSITIONS + 3], timetable[3 * MOST_MOVES + 3];
static uint8_t shortened[sizeof plan], converted[sizeof plan];
static size_t plan_length, timetable_length;
static uint64_t report[WICHTEAB_REPORT_NUMBERS];

static void begin(struct record *record)
{
    memset(record, 0, sizeof *record);
}

static void put(struct record *record, unsigned value, unsigned width)
{
    while (width-- > 0) {
        record->bytes[record->bits / 8] |= (uint8_t)((value >> width & 1) << (7 - record->bits % 8));
        record->bits++;
    }
}

static size_t length_of(const struct record *record)
{
    return (record->bits + 7) / 8;
}

/* The order's counts; edges, starts and goals are put behind them. */
static void begin_order(unsigned edges, unsigned racks)
{
    begin(&order);
    put(&order, POSITIONS, 7);
    put(&order, edges, 8);
    put(&order, racks, 7);
    put(&order, 0, 2);
}

static void put_pair(struct record *record, unsigned first, unsigned second)
{
    put(record, first, 6);
    put(record, second, 6);
}

/* The 112 edges of the 8 by 8 grid, positions row by row. */
static void put_grid(void)
{
    unsigned at;
    for (at = 0; at < POSITIONS; at++) {
        if (at % 8 < 7) {
            put_pair(&order, at, at + 1);
        }
        if (at < POSITIONS - 8) {
            put_pair(&order, at, at + 8);
        }
    }
}

/* Positions 0 to 62 in a ring, and 63 beside it, joined to 0 and 2. */
static void put_ring_and_handle(void)
{
    unsigned at;
    put_pair(&order, 0, 1);
    put_pair(&order, 0, 62);
    put_pair(&order, 0, 63);
    for (at = 1; at < 62; at++) {
        put_pair(&order, at, at + 1);
        if (at == 2) {
            put_pair(&order, 2, 63);
        }
    }
}

/* 62 racks at 0 to 61; the goal of rack 1 is the last position, and so on downwards. */
static void put_racks_turned_round(void)
{
    unsigned rack;
    for (rack = 0; rack < 62; rack++) {
        put(&order, rack, 6);
    }
    for (rack = 0; rack < 62; rack++) {
        put(&order, POSITIONS - 1 - rack, 6);
    }
    order_length = length_of(&order);
}

/* The position of this number on the way through the grid, row after row, there and back. */
static unsigned on_the_way(unsigned number)
{
    unsigned row = number / 8, column = number % 8;
    return 8 * row + (row % 2 == 0 ? column : 7 - column);
}

/* 63 racks, each going one place along the way in one step: the first mover's chain has all of them, and is followed to its
   end before it is found to be too long. */
static void put_train(void)
{
    struct record step;
    unsigned number, at;
    begin_order(112, 63);
    put_grid();
    begin(&step);
    put(&step, 1, 22);
    put(&step, 0, 2);
    put(&step, 63, 8);
    for (number = 0; number < 63; number++) {
        put(&order, on_the_way(number), 6);
    }
    for (number = 1; number < 64; number++) {
        put(&order, on_the_way(number), 6);
    }
    for (at = 0; at < POSITIONS; at++) {
        number = on_the_way(at); /* the way there is its own way back */
        if (number < 63) {
            put_pair(&step, at, on_the_way(number + 1));
        }
    }
    order_length = length_of(&order);
    timetable_length = length_of(&step);
    memcpy(timetable, step.bytes, timetable_length);
}

/* The largest model's short order without racks: 2 bytes. */
static uint64_t order_expand(void)
{
    static const uint8_t short_order[2] = {5, 0};
    static uint8_t full[WICHTEAB_ORDER_LONGEST];
    return wichteab_order_expand(short_order, sizeof short_order, full, sizeof full);
}

static uint64_t order_check(void)
{
    return wichteab_order_check(order.bytes, order_length);
}

static uint64_t order_end(void)
{
    return wichteab_order_length(order.bytes, order_length);
}

static uint64_t floor_check(void)
{
    return wichteab_floor_check(order.bytes, order_length);
}

static uint64_t one_vacancy(void)
{
    return wichteab_one_vacancy(order.bytes, order_length);
}

static uint64_t plan_make(void)
{
    return wichteab_plan_make(order.bytes, order_length, plan, sizeof plan);
}

static uint64_t plan_check(void)
{
    return wichteab_plan_check(order.bytes, order_length, plan, plan_length);
}

static uint64_t plan_shorten(void)
{
    return wichteab_plan_shorten(order.bytes, order_length, plan, plan_length, shortened, sizeof shortened);
}

static uint64_t plan_convert(void)
{
    return wichteab_plan_convert(order.bytes, order_length, plan, plan_length, converted, sizeof converted);
}

static uint64_t timetable_make(void)
{
    return wichteab_timetable_make(order.bytes, order_length, plan, plan_length, timetable, sizeof timetable);
}

static uint64_t timetable_end(void)
{
    return wichteab_timetable_length(timetable, sizeof timetable);
}

static uint64_t timetable_check(void)
{
    return wichteab_timetable_check(order.bytes, order_length, timetable, timetable_length);
}

static uint64_t timetable_step(void)
{
    return wichteab_timetable_step(timetable, timetable_length, 1);
}

/* The live floor: opened, its first step run and taken back again. */
static wichteab_floor live = WICHTEAB_FLOOR_CLOSED;

static uint64_t floor_open(void)
{
    return wichteab_floor_open(&live, WICHTEAB_VIEWER, order.bytes, order_length, timetable, timetable_length);
}

static uint64_t floor_read(void)
{
    static uint8_t racks[64];
    return wichteab_floor_read(&live, WICHTEAB_VIEWER, order.bytes, order_length, timetable, timetable_length, racks);
}

static uint64_t floor_run(void)
{
    (void)floor_open();
    return wichteab_floor_run(&live, WICHTEAB_OPERATOR, order.bytes, order_length, timetable, timetable_length);
}

static uint64_t floor_take_back(void)
{
    (void)floor_run();
    return wichteab_floor_take_back(&live, WICHTEAB_SUPERVISOR, order.bytes, order_length, timetable, timetable_length);
}

static uint64_t dearest_carry(void)
{
    static uint8_t buffer[145];
    return wichteab_dearest_carry(order.bytes, order_length, buffer, sizeof buffer);
}

/* The order and the timetable as a season of one pair. */
static uint64_t season_report(void)
{
    static uint8_t season[WICHTEAB_ORDER_LONGEST + sizeof timetable];
    memcpy(season, order.bytes, order_length);
    memcpy(season + order_length, timetable, timetable_length);
    return wichteab_season_report(season, order_length + timetable_length, report);
}

/* A call and what it gave. */
struct call {
    uint64_t (*function)(void);
    uint64_t result;
};

static void *make_call(void *argument)
{
    struct call *call = (struct call *)argument;
    call->result = call->function();
    return NULL;
}

/* What the function gives on a thread with so many bytes of stack. */
static uint64_t on_small_stack(uint64_t (*function)(void), const char *name, size_t size)
{
    struct call call = {function, 0};
    uint8_t *stack = (uint8_t *)mmap(NULL, GUARD + size, PROT_READ | PROT_WRITE, MAP_PRIVATE | MAP_ANONYMOUS, -1, 0);
    size_t touched = size;
    pthread_attr_t attributes;
    pthread_t thread;
    if (stack == (uint8_t *)MAP_FAILED || mprotect(stack, GUARD, PROT_NONE) != 0) {
        abort();
    }
    stack += GUARD;
    memset(stack, FILL, size);
    if (pthread_attr_init(&attributes) != 0 || pthread_attr_setstack(&attributes, stack, size) != 0 ||
        pthread_create(&thread, &attributes, make_call, &call) != 0 || pthread_join(thread, NULL) != 0) {
        abort();
    }
    while (touched > 0 && stack[size - touched] == FILL) {
        touched--;
    }
    printf("%s: %u KiB\n", name, (unsigned)(touched + 1023) / 1024);
    fflush(stdout);
    pthread_attr_destroy(&attributes);
    munmap(stack - GUARD, GUARD + size);
    return call.result;
}

/* The same on both stacks; what it gave. */
static uint64_t run_on(size_t size, uint64_t (*function)(void), const char *name)
{
    uint64_t result = on_small_stack(function, name, size);
    expect(result == function(), name);
    return result;
}

static uint64_t run(uint64_t (*function)(void), const char *name)
{
    return run_on(STACK, function, name);
}

/* The plan is converted, and from now on it is the converted one. */
static uint64_t turn_edition(const char *name)
{
    uint64_t answer = run(plan_convert, name);
    plan_length = wichteab_converted_length(plan, plan_length);
    memcpy(plan, converted, plan_length);
    return answer;
}

/* One rack goes to and fro between two positions, so often that the shortener and the timetable maker take their largest tables. Edition one. */
static void put_to_and_fro(unsigned moves)
{
    static const uint8_t to_and_fro[] = {0x00, 0x10, 0x40}; /* 0>1, 1>0 */
    size_t at;
    begin(&order);
    put(&order, 2, 7);
    put(&order, 1, 8);
    put(&order, 1, 7);
    put(&order, 0, 2);
    put_pair(&order, 0, 1);
    put_pair(&order, 0, 0);
    order_length = length_of(&order);
    plan_length = wichteab_plan_length(1, moves);
    plan[0] = (uint8_t)(moves >> 14);
    plan[1] = (uint8_t)(moves >> 6);
    plan[2] = (uint8_t)(moves << 2);
    for (at = 3; at < plan_length; at++) {
        plan[at] = to_and_fro[(at - 3) % 3];
    }
}

/* So many moves to and fro, in both editions: each takes a step of its own, and none is left when it is shortened. */
static void run_to_and_fro(unsigned moves)
{
    put_to_and_fro(moves);
    expect(run(timetable_make, "wichteab_timetable_make, many moves") == (uint64_t)moves << 8, "each move has a step of its own");
    expect(run_on(LARGER_STACK, plan_shorten, "wichteab_plan_shorten, many moves") == 0, "of the moves none is left");
    expect(turn_edition("wichteab_plan_convert, many moves") == (uint64_t)moves << 8, "they are converted");
    expect(run_on(LARGER_STACK, plan_shorten, "wichteab_plan_shorten, many moves, edition two") == 0,
           "of the moves in edition two none is left");
}

/* Every function in turn on one order that can be planned. */
static void run_all(void)
{
    uint64_t planned, checked;
    expect(run(order_check, "wichteab_order_check") == 0, "a well-formed order");
    expect(run(order_end, "wichteab_order_length") == order_length, "of its length");
    expect(run(floor_check, "wichteab_floor_check") == 0, "that can be planned");
    planned = run_on(LARGER_STACK, plan_make, "wichteab_plan_make");
    plan_length = wichteab_plan_length(2, wichteab_plan_moves(planned));
    expect(wichteab_number(planned) == 0, "planned");
    expect(run(plan_check, "wichteab_plan_check") == planned, "and its plan accepted");
    expect(wichteab_number(run_on(LARGER_STACK, plan_shorten, "wichteab_plan_shorten")) == 0, "shortened");
    expect(turn_edition("wichteab_plan_convert, to edition one") == planned, "converted");
    expect(turn_edition("wichteab_plan_convert, to edition two") == planned, "and back");
    expect(wichteab_number(run(timetable_make, "wichteab_timetable_make")) == 0, "timetabled");
    timetable_length = (size_t)run(timetable_end, "wichteab_timetable_length");
    checked = run(timetable_check, "wichteab_timetable_check");
    expect(wichteab_number(checked) == 0, "and its timetable accepted");
    expect(wichteab_timetable_moves(checked) == wichteab_plan_moves(planned), "with the plan's moves");
    expect(wichteab_number(run(timetable_step, "wichteab_timetable_step")) == 0, "with a first step");
    expect(run(floor_open, "wichteab_floor_open") == 0, "a live floor is opened with it");
    expect(run(floor_read, "wichteab_floor_read") == 0, "read");
    expect(run(floor_run, "wichteab_floor_run") == (uint64_t)1 << 8, "the first step run on it");
    expect(run(floor_take_back, "wichteab_floor_take_back") == 0, "and taken back");
    expect(wichteab_number(run(dearest_carry, "wichteab_dearest_carry")) == 0, "its floor has a dearest carry");
    expect(run(season_report, "wichteab_season_report") == 0, "and they are a season of one pair");
    expect(wichteab_report_accepted(report) == 1 && wichteab_report_moves(report) == wichteab_plan_moves(planned), "with the same moves");
}

int main(void)
{
    uint64_t answer;
    expect(wichteab_expanded_length(run(order_expand, "wichteab_order_expand")) == 171, "the largest model");
    begin_order(112, 62);
    put_grid();
    put_racks_turned_round();
    run_all();
    begin_order(65, 62);
    put_ring_and_handle();
    put_racks_turned_round();
    run_all();
    run_to_and_fro(200000);
    put_train();
    expect(wichteab_number(run(one_vacancy, "wichteab_one_vacancy")) == 0, "63 racks and one vacancy");
    answer = run(timetable_check, "wichteab_timetable_check, a train of 63");
    expect(wichteab_number(answer) == WICHTEAB_TIMETABLE_STEP && wichteab_place(answer) == 1, "the train is too long");
    expect(run(season_report, "wichteab_season_report, a train of 63") == 0, "such a pair is a season too");
    expect(wichteab_report_refused(report) == 1, "in which it is refused");
    return close_tests();
}
