//! The case book of document 01, starred cases and others, and a case for each other row of its
//! table: input and expected answer, one line each. Every line runs on both implementations: the answer is
//! the second one's, and the proved function has to give the same.

use compare::packed;
use compare::proved;
use second::answer::{Answer, Refusal};
use second::timetable::{Counts, Part};
use second::{converting, floor, making, order, plan, planning, shortening, timetable};

/// The bytes that the words give in hexadecimal.
fn hex(text: &str) -> Vec<u8> {
    text.split_whitespace().map(|byte| u8::from_str_radix(byte, 16).unwrap()).collect()
}

fn refused<Counts>(number: u8, place: u32) -> Answer<Counts> {
    Err(Refusal { number, place })
}

/// The counts are the second implementation's: the C interface gives none.
fn order_check(order: &str) -> Answer<(usize, usize, usize)> {
    let answer = order::check(&hex(order)).map(|counts| (counts.n, counts.e, counts.m));
    assert_eq!(proved::order_check(&hex(order)), packed::nothing(answer), "{order}");
    answer
}

fn plan_check(order: &str, plan: &str) -> Answer<u32> {
    let answer = plan::check(&hex(order), &hex(plan));
    assert_eq!(proved::plan_check(&hex(order), &hex(plan)), packed::count(answer), "{order}, {plan}");
    answer
}

fn timetable_check(order: &str, timetable: &str) -> Answer<(u32, u32)> {
    let answer = timetable::check(&hex(order), &hex(timetable));
    let of_proved = proved::timetable_check(&hex(order), &hex(timetable));
    assert_eq!(of_proved, packed::steps_and_moves(answer), "{order}, {timetable}");
    answer.map(|Counts { steps, moves }| (steps, moves))
}

/// Offset and length.
fn timetable_step(timetable: &str, number: u64) -> Answer<(usize, usize)> {
    let answer = timetable::step(&hex(timetable), number);
    assert_eq!(
        proved::timetable_step(&hex(timetable), number),
        packed::part(answer),
        "{timetable}, {number}"
    );
    answer.map(|Part { offset, length }| (offset, length))
}

/// What came of a function that reads an order and a plan and writes to a buffer: the answer, and the buffer
/// afterwards, which was all AA.
type Made = (Answer<u32>, Vec<u8>);

fn made(
    proved: fn(&[u8], &[u8], &mut [u8]) -> u64,
    second: fn(&[u8], &[u8], &mut [u8]) -> Answer<u32>,
    [order, plan]: [&str; 2],
    length: usize,
) -> Made {
    let mut buffer = vec![0xAA; length];
    let answer = second(&hex(order), &hex(plan), &mut buffer);
    let mut of_proved = vec![0xAA; length];
    let packed = proved(&hex(order), &hex(plan), &mut of_proved);
    assert_eq!((packed, &of_proved), (packed::count(answer), &buffer), "{order}, {plan}");
    (answer, buffer)
}

fn timetable_make(order: &str, plan: &str, length: usize) -> Made {
    made(proved::timetable_make, making::make, [order, plan], length)
}

fn plan_shorten(order: &str, plan: &str, length: usize) -> Made {
    made(proved::plan_shorten, shortening::shorten, [order, plan], length)
}

fn plan_convert(order: &str, plan: &str, length: usize) -> Made {
    made(proved::plan_convert, converting::convert, [order, plan], length)
}

fn floor_check(order: &str) -> Answer<()> {
    let answer = floor::check(&hex(order));
    assert_eq!(proved::floor_check(&hex(order)), packed::nothing(answer), "{order}");
    answer
}

/// The planner's refusal, if there is one. What the proved planner answers and writes is judged.
fn plan_make(order: &str, buffer_length: usize) -> Answer<()> {
    let before = vec![0xAA; buffer_length];
    let mut after = before.clone();
    let answer = packed::to_count(proved::plan_make(&hex(order), &mut after));
    assert_eq!(planning::fault(&hex(order), &before, &after, answer), None, "{order}");
    planning::judge_call(&hex(order), buffer_length).map(|_| ())
}

/// The order of "Programs": the floor F, rack 1 from 0 to 3, rack 2 from 3 to 0.
const ORDER: &str = "08 0A 08 00 10 02 04 20 43 08 30 03 0C 00";
const PLAN: &str = "00 00 10 00 10 C2 08 00 43";
/// The same in edition two: 0>1 rack 1, 3>2 rack 2, 2>0 rack 2, 1>3 rack 1.
const PLAN_TWO: &str = "00 00 11 00 10 03 08 10 80 04 10 C0";
const TIMETABLE: &str = "00 00 08 02 00 10 C2 02 04 30 80";
const FULL_F: &str = "08 0A 10 00 10 02 04 20 43 08 30 01 08 30 01 08 30"; // each rack at its goal
const TWO: &str = "04 02 04 00 10 01"; // two positions, one edge, rack 1 from 0 to 1

#[test]
fn case_1_the_plan_and_its_timetable() {
    assert_eq!(order_check(ORDER), Ok((4, 5, 2)));
    assert_eq!(plan_check(ORDER, PLAN), Ok(4));
    assert_eq!(timetable_make(ORDER, PLAN, 11), refused_make(44, 11));
    assert_eq!(timetable_make(ORDER, PLAN, 14), refused_make(44, 14));
    assert_eq!(timetable_make(ORDER, PLAN, 15), (Ok(2), hex("00 00 08 02 00 10 C2 02 04 30 80 AA AA AA AA")));
    assert_eq!(timetable_check(ORDER, TIMETABLE), Ok((2, 4)));
}

/// A refusal by number alone: the buffer is as it was.
fn refused_make(number: u8, length: usize) -> Made {
    (refused(number, 0), vec![0xAA; length])
}

#[test]
fn case_2_two_moves_in_one_step() {
    let order = "08 0A 08 00 10 02 04 20 43 08 30 01 04 30";
    assert_eq!(plan_check(order, "00 00 08 04 30 01"), Ok(2));
    assert_eq!(timetable_make(order, "00 00 08 04 30 01", 9), (Ok(1), hex("00 00 04 02 00 10 43 AA AA")));
    assert_eq!(timetable_check(order, "00 00 04 02 00 10 43"), Ok((1, 2)));
}

#[test]
fn case_3_a_ring_and_a_swap_have_no_leader() {
    let to_1_2_0 = "08 0A 0C 00 10 02 04 20 43 08 30 01 08 10 80";
    let to_1_0_2 = "08 0A 0C 00 10 02 04 20 43 08 30 01 08 10 02";
    assert_eq!(timetable_check(to_1_2_0, "00 00 04 03 00 10 42 08 00"), refused(42, 1));
    assert_eq!(timetable_check(to_1_0_2, "00 00 04 02 00 10 40"), refused(42, 1));
}

#[test]
fn case_4_a_ring_and_too_many_racks() {
    assert_eq!(plan_make("06 06 04 00 10 02 04 20 01", 0), refused(23, 0));
    assert_eq!(plan_make("06 06 04 00 10 02 04 20 01", 488), refused(23, 0));
    assert_eq!(plan_make("06 06 04 00 10 02 04 20 01", 489), Ok(()));
    assert_eq!(floor_check("06 06 04 00 10 02 04 20 01"), Ok(()));
    // three racks on a ring of four: turned by one place, and the other way round
    assert_eq!(floor_check("08 08 0C 00 10 03 04 20 83 00 10 81 08 30"), Ok(()));
    assert_eq!(floor_check("08 08 0C 00 10 03 04 20 83 00 10 82 04 00"), refused(24, 0));
    assert_eq!(plan_make("08 08 0C 00 10 03 04 20 83 00 10 82 04 00", 0), refused(24, 0));
    assert_eq!(plan_make("08 0A 0C 00 10 02 04 20 43 08 30 01 08 10 80", 1155), refused(20, 0));
    assert_eq!(floor_check(ORDER), Ok(()));
}

#[test]
fn case_5_paths() {
    assert_eq!(plan_make("08 06 04 00 10 42 08 30 03", 1155), refused(21, 0));
    assert_eq!(plan_make("06 04 08 00 10 42 00 10 42", 1155), refused(20, 0));
}

#[test]
fn case_6_the_plan_buffer() {
    assert_eq!(plan_make(ORDER, 1154), refused(23, 0));
    assert_eq!(plan_make(ORDER, 1155), Ok(()));
}

/// A position in the middle of a ring of four, and of a ring of five, joined to each; one rack.
#[test]
fn four_sides_only() {
    let four = "0A 10 04 00 10 02 00 30 04 04 20 44 08 30 C4 00 10";
    assert_eq!(floor_check(four), Ok(()));
    assert_eq!(plan_make(four, 2252), refused(23, 0));
    assert_eq!(plan_make(four, 2253), Ok(()));
    // its start is its goal, and the buffer is too short or not
    let five = "0C 14 04 00 10 02 00 30 04 00 50 42 04 50 83 0C 41 05 00 00";
    assert_eq!(floor_check(five), refused(26, 0));
    assert_eq!(plan_make(five, 0), refused(26, 0));
    assert_eq!(plan_make(five, 3891), refused(26, 0));
    // the order is still read, and a plan for it checked and timetabled
    assert_eq!(order_check(five), Ok((6, 10, 1)));
    assert_eq!(plan_check(five, "00 00 00"), Ok(0));
    assert_eq!(timetable_make(five, "00 00 00", 3), (Ok(0), hex("00 00 00")));
    assert_eq!(timetable_check(five, "00 00 00"), Ok((0, 0)));
    // with five racks 20 applies too, and without the ring round it 21
    let full = "0C 14 14 00 10 02 00 30 04 00 50 42 04 50 83 0C 41 05 00 10 83 10 00 42 0C 40";
    assert_eq!(floor_check(full), refused(20, 0));
    assert_eq!(floor_check("0C 0A 04 00 10 02 00 30 04 00 50 01"), refused(21, 0));
}

#[test]
fn case_7_the_empty_plan() {
    assert_eq!(plan_check(ORDER, "00 00 00"), refused(33, 1));
}

#[test]
fn case_8_largest_floor_and_steps_handed_out() {
    assert_eq!(order_check("80 00 00"), Ok((64, 0, 0)));
    assert_eq!(order_check("82 00 00"), refused(11, 0));
    assert_eq!(timetable_step(TIMETABLE, 1), Ok((3, 4)));
    assert_eq!(timetable_step(TIMETABLE, 2), Ok((7, 4)));
    assert_eq!(timetable_step(TIMETABLE, 0), refused(45, 0));
    assert_eq!(timetable_step(TIMETABLE, 3), refused(45, 0));
}

#[test]
fn orders_refused() {
    assert_eq!(order_check(""), refused(10, 0));
    assert_eq!(order_check("08 0A"), refused(10, 0));
    assert_eq!(order_check("08 0A 08"), refused(10, 0)); // its counts give 14 bytes
    assert_eq!(order_check("00 00 03 00"), refused(10, 0)); // and n = 0, and spare bits set
    assert_eq!(order_check("00 00 03"), refused(11, 0)); // and spare bits set
    assert_eq!(order_check("08 0A 09 00 10 02 04 20 43 08 30 03 0C 00"), refused(12, 0)); // spare bit
    assert_eq!(order_check("08 0A 0A 00 10 02 04 20 43 08 30 03 0C 00"), refused(12, 0)); // the other
    assert_eq!(order_check("06 02 00 00 11"), refused(12, 0)); // pad bit
    assert_eq!(order_check("06 02 00 04 00"), refused(13, 0)); // 1-0, not lower first
    assert_eq!(order_check("06 02 00 04 10"), refused(13, 0)); // 1-1
    assert_eq!(order_check("06 02 00 00 30"), refused(13, 0)); // 0-3, out of range
    assert_eq!(order_check("06 04 00 00 10 01"), refused(13, 0)); // 0-1 twice
    assert_eq!(order_check("06 04 00 04 20 01"), refused(13, 0)); // 1-2 before 0-1
    assert_eq!(order_check("06 00 04 0C 00"), refused(14, 0)); // start 3
    assert_eq!(order_check("06 00 04 00 30"), refused(14, 0)); // goal 3
    assert_eq!(order_check("06 00 08 04 10 02"), refused(14, 0)); // starts 1, 1; goals 0, 2
    assert_eq!(order_check("06 00 08 00 20 41"), refused(14, 0)); // starts 0, 2; goals 1, 1
    assert_eq!(order_check("06 00 08 00 20 80"), Ok((3, 0, 2))); // starts 0, 2; goals 2, 0
}

#[test]
fn the_smallest_orders() {
    assert_eq!(order_check("02 00 00"), Ok((1, 0, 0)));
    assert_eq!(order_check("02 00 04 00 00"), Ok((1, 0, 1))); // full floor
    assert_eq!(order_check(TWO), Ok((2, 1, 1)));
}

#[test]
fn plans_refused() {
    assert_eq!(plan_check("00 00 00", "00 00 01"), refused(11, 0)); // the order's refusal first
    assert_eq!(plan_check(TWO, ""), refused(30, 0));
    assert_eq!(plan_check(TWO, "00 00"), refused(30, 0));
    assert_eq!(plan_check(TWO, "00 00 04"), refused(30, 0)); // its move is missing
    assert_eq!(plan_check(TWO, "00 00 04 00 10 00"), refused(30, 0)); // a byte too many
    assert_eq!(plan_check(TWO, "00 00 06 00 10"), refused(31, 0)); // spare bits 10
    assert_eq!(plan_check(TWO, "00 00 07 00 10"), refused(31, 0)); // 11
    assert_eq!(plan_check(TWO, "00 00 04 00 11"), refused(31, 0)); // pad bit
    assert_eq!(plan_check(TWO, "00 00 04 00 00"), refused(32, 1)); // 0>0
    assert_eq!(plan_check(TWO, "00 00 04 04 10"), refused(32, 1)); // 1>1, where no rack is
    assert_eq!(plan_check(TWO, "00 00 04 00 20"), refused(32, 1)); // 0>2, out of range
    assert_eq!(plan_check(TWO, "00 00 04 FC 00"), refused(32, 1)); // 63>0, out of range
    assert_eq!(plan_check(ORDER, "00 00 04 00 30"), refused(32, 1)); // 0>3, no edge, and into rack 2
    assert_eq!(plan_check(ORDER, "00 00 04 04 20"), refused(34, 1)); // 1>2, from a vacant position
    assert_eq!(plan_check(TWO, "00 00 04 04 00"), refused(34, 1)); // 1>0, and into rack 1
    assert_eq!(plan_check(TWO, "00 00 08 00 10 01"), refused(34, 2)); // 0>1, 0>1
    assert_eq!(plan_check(ORDER, "00 00 08 00 10 43"), refused(35, 2)); // 0>1, 1>3 into rack 2
    assert_eq!(plan_check(ORDER, "00 00 0C 00 10 43 00 30"), refused(35, 2)); // and then 0>3, no edge
    assert_eq!(plan_check(ORDER, "00 00 0C 00 10 43 04 40"), refused(35, 2)); // and then 1>4, out of range
    assert_eq!(plan_check(TWO, "00 00 08 00 10 40"), refused(33, 1)); // 0>1, 1>0
    assert_eq!(plan_check(TWO, "00 00 04 00 10"), Ok(1));
    assert_eq!(plan_check(FULL_F, "00 00 00"), Ok(0)); // a full floor
    assert_eq!(plan_check(FULL_F, "00 00 04 00 10"), refused(35, 1)); // where no rack can move
}

#[test]
fn plans_of_edition_two() {
    assert_eq!(plan_check(ORDER, PLAN_TWO), Ok(4));
    assert_eq!(timetable_make(ORDER, PLAN_TWO, 15), timetable_make(ORDER, PLAN, 15));
    assert_eq!(plan_check(FULL_F, "00 00 01"), Ok(0)); // no moves
    assert_eq!(plan_check(FULL_F, "00 00 02"), refused(31, 0)); // spare bits 10
    assert_eq!(plan_check(FULL_F, "00 00 03"), refused(31, 0)); // 11
    assert_eq!(plan_check(ORDER, "00 00 01"), refused(33, 1));
    assert_eq!(plan_check(TWO, "00 00 05 00 10 00"), Ok(1)); // 0>1 rack 1
    assert_eq!(plan_check(TWO, "00 00 05 00 10"), refused(30, 0)); // as long as in edition one
    assert_eq!(plan_check(TWO, "00 00 04 00 10 00"), refused(30, 0)); // and the other way round
    assert_eq!(plan_check(TWO, "00 00 06 00 10 00"), refused(30, 0)); // spare bits 10: its length is edition one's
    assert_eq!(plan_check(TWO, "00 00 07 00 10 00"), refused(30, 0)); // 11
    assert_eq!(plan_check(TWO, "00 00 05 00 10 20"), refused(31, 0)); // the first of 6 bits of pad
    assert_eq!(plan_check(TWO, "00 00 05 00 10 01"), refused(31, 0)); // the last
    assert_eq!(plan_check(TWO, "00 00 05 00 10 40"), refused(36, 1)); // rack 2, and there is none
    assert_eq!(plan_check(TWO, "00 00 05 00 1F C0"), refused(36, 1)); // rack 64
    assert_eq!(plan_check(ORDER, "00 00 05 00 10 40"), refused(36, 1)); // rack 2, which stands at 3
    assert_eq!(plan_check(ORDER, "00 00 05 00 30 40"), refused(32, 1)); // 0>3 rack 2: no edge, and 35, and 36
    assert_eq!(plan_check(ORDER, "00 00 05 04 20 00"), refused(34, 1)); // 1>2 rack 1, from a vacant position
    assert_eq!(plan_check(ORDER, "00 00 09 00 10 01 0C 10"), refused(35, 2)); // 0>1 rack 1, 1>3 rack 2: 36 too
    assert_eq!(plan_check(ORDER, "00 00 09 00 10 41 0C 00"), refused(36, 1)); // 0>1 rack 2, then 1>3 into rack 2
    assert_eq!(plan_check(TWO, "00 00 09 00 10 01 00 00"), refused(33, 1)); // 0>1, 1>0, both rack 1
    assert_eq!(plan_check(TWO, "00 00 09 00 10 01 00 10"), refused(36, 2)); // the latter rack 2
    assert_eq!(plan_check(TWO, "00 00 09 00 10 01 00 01"), refused(31, 0)); // the last of 4 bits of pad
}

#[test]
fn the_other_edition() {
    let (no_moves, no_moves_two) = ("00 00 00", "00 00 01");
    assert_eq!(plan_convert(ORDER, PLAN, 12), (Ok(4), hex(PLAN_TWO)));
    assert_eq!(plan_convert(ORDER, PLAN, 11), refused_make(38, 11));
    assert_eq!(plan_convert(ORDER, PLAN, 14), (Ok(4), hex(&format!("{PLAN_TWO} AA AA"))));
    assert_eq!(plan_convert(ORDER, PLAN_TWO, 9), (Ok(4), hex(PLAN)));
    assert_eq!(plan_convert(ORDER, PLAN_TWO, 8), refused_make(38, 8));
    assert_eq!(plan_convert(FULL_F, no_moves, 4), (Ok(0), hex("00 00 01 AA")));
    assert_eq!(plan_convert(FULL_F, no_moves_two, 3), (Ok(0), hex(no_moves)));
    assert_eq!(plan_convert(FULL_F, no_moves, 2), refused_make(38, 2));
    // The plan's refusal comes before the buffer's.
    assert_eq!(plan_convert(ORDER, no_moves, 0), (refused(33, 1), vec![]));
    assert_eq!(plan_convert(TWO, "00 00 05 00 10 40", 0), (refused(36, 1), vec![]));
    assert_eq!(plan_convert(TWO, "00 00 07 00 10", 4), refused_make(31, 4));
    assert_eq!(plan_convert("00 00 00", PLAN, 20), refused_make(11, 20));
}

#[test]
fn the_shortener_writes_the_edition_it_read() {
    // 0>1 1>0, both rack 1: nothing is left
    let home = "04 02 04 00 10 00";
    assert_eq!(plan_shorten(home, "00 00 08 00 10 40", 6), (Ok(0), hex("00 00 00 AA AA AA")));
    assert_eq!(plan_shorten(home, "00 00 09 00 10 01 00 00", 8), (Ok(0), hex("00 00 01 AA AA AA AA AA")));
    // 37 in the bytes of the plan given
    assert_eq!(plan_shorten(home, "00 00 08 00 10 40", 5), refused_make(37, 5));
    assert_eq!(plan_shorten(home, "00 00 09 00 10 01 00 00", 7), refused_make(37, 7));
    assert_eq!(plan_shorten(ORDER, PLAN_TWO, 12), (Ok(4), hex(PLAN_TWO)));
}

#[test]
fn timetables_refused() {
    assert_eq!(timetable_check("00 00 00", "00 00 01"), refused(11, 0)); // the order's refusal first
    assert_eq!(timetable_check(TWO, "00 00"), refused(40, 0));
    assert_eq!(timetable_check(TWO, "00 00 04"), refused(40, 0)); // its step is missing
    assert_eq!(timetable_check(TWO, "00 00 04 01 00"), refused(40, 0)); // runs past the end
    assert_eq!(timetable_check(TWO, "00 00 04 01 00 10 00"), refused(40, 0)); // a byte left over
    assert_eq!(timetable_check(TWO, "00 00 06 01 00 10"), refused(41, 0)); // spare bit
    assert_eq!(timetable_check(TWO, "00 00 04 01 00 11"), refused(41, 0)); // pad bit
    assert_eq!(timetable_check(TWO, "00 00 08 01 04 00 01 00 11"), refused(41, 0)); // after a bad step
    assert_eq!(timetable_check(TWO, "00 00 04 01 04 00"), refused(42, 1)); // 1>0, vacant
    assert_eq!(timetable_check(TWO, "00 00 08 01 00 10 01 00 10"), refused(42, 2));
    assert_eq!(timetable_check(TWO, "00 00 04 02 00 10 01"), refused(42, 1)); // 0>1 twice
    assert_eq!(timetable_check(TWO, "00 00 08 01 00 10 01 04 00"), refused(43, 1));
    assert_eq!(timetable_check(TWO, "00 00 00"), refused(43, 1));
    assert_eq!(timetable_check(TWO, "00 00 04 01 00 10"), Ok((1, 1)));
    assert_eq!(timetable_check(TWO, "00 00 0C 00 01 00 10 00"), Ok((3, 1))); // two steps of waiting
    assert_eq!(timetable_check(FULL_F, "00 00 04 00"), Ok((1, 0)));
}

#[test]
fn trains_and_their_leaders() {
    let path = "08 06 0C 00 10 42 08 30 01 08 10 83"; // 0-1-2-3, racks at 0, 1, 2 to 1, 2, 3
    assert_eq!(timetable_check(path, "00 00 04 03 00 10 42 08 30"), Ok((1, 3))); // 0>1 1>2 2>3
    assert_eq!(timetable_check(path, "00 00 04 02 00 10 42"), refused(42, 1)); // into 2, which stays
    assert_eq!(timetable_check(path, "00 00 04 03 04 20 01 08 30"), refused(42, 1)); // not ascending
    let star = "08 06 08 00 10 02 00 30 42 00 30"; // 0-1, 0-2, 0-3, racks at 1, 2 to 0, 3
    assert_eq!(timetable_check(star, "00 00 04 02 04 00 80"), refused(42, 1)); // both into 0
    assert_eq!(timetable_check(star, "00 00 08 01 04 00 01 08 00"), refused(42, 2));
    // into rack 1
}

/// The path 0 to 8 with racks at 0 to 7, and the path 0 to 9 with racks at 0 to 8: each rack's goal is one place on.
const EIGHT: &str = "12 10 20 00 10 42 08 30 C4 10 51 46 18 71 C8 00 10 83 10 51 87 04 20 C4 14 61 C8";
const NINE: &str =
    "14 12 24 00 10 42 08 30 C4 10 51 46 18 71 C8 20 90 01 08 31 05 18 72 01 08 31 05 18 72 09";

/// Request (i): "A legal step has no chain of more than eight moves from any mover to its leader."
#[test]
fn trains_of_eight_and_of_nine() {
    let all = "00 00 04 08 00 10 42 08 30 C4 10 51 46 18 71 C8"; // 0>1 to 7>8
    assert_eq!(timetable_check(EIGHT, all), Ok((1, 8)));
    let all = "00 00 04 09 00 10 42 08 30 C4 10 51 46 18 71 C8 20 90"; // 0>1 to 8>9
    assert_eq!(timetable_check(NINE, all), refused(42, 1));
    let waiting_first = "00 00 08 00 09 00 10 42 08 30 C4 10 51 46 18 71 C8 20 90";
    assert_eq!(timetable_check(NINE, waiting_first), refused(42, 2));
    let the_ninth_later = "00 00 08 08 04 20 83 0C 41 05 14 61 87 1C 82 09 01 00 10"; // 1>2 to 8>9, then 0>1
    assert_eq!(timetable_check(NINE, the_ninth_later), Ok((2, 9)));
    // Not a limit on the moves of a step: paths 0 to 5 and 6 to 11, five racks on each, in two trains.
    let two_paths =
        "18 14 28 00 10 42 08 30 C4 10 51 87 1C 82 09 24 A2 8B 00 10 83 10 61 C8 24 A0 42 0C 41 47 20 92 8B";
    let ten_moves = "00 00 04 0A 00 10 42 08 30 C4 10 51 87 1C 82 09 24 A2 8B";
    assert_eq!(timetable_check(two_paths, ten_moves), Ok((1, 10)));
}

/// Request (i): "In the making rule, a move that would be ninth goes one step later."
#[test]
fn a_move_that_would_be_ninth() {
    let plan = "00 00 20 1C 81 87 14 61 05 0C 40 83 04 20 01"; // 7>8 to 0>1
    let one_step = "00 00 04 08 00 10 42 08 30 C4 10 51 46 18 71 C8";
    assert_eq!(made_record(timetable_make(EIGHT, plan, 27)), (Ok(1), hex(one_step)));
    // 8>9 to 0>1 in both editions: 0>1 would be ninth
    let two_steps = "00 00 08 08 04 20 83 0C 41 05 14 61 87 1C 82 09 01 00 10";
    let plan = "00 00 24 20 91 C8 18 71 46 10 50 C4 08 30 42 00 10";
    assert_eq!(made_record(timetable_make(NINE, plan, 30)), (Ok(2), hex(two_steps)));
    let plan = "00 00 25 20 92 07 20 71 87 18 51 85 10 51 03 10 30 83 08 10 81 00 10 00";
    assert_eq!(made_record(timetable_make(NINE, plan, 30)), (Ok(2), hex(two_steps)));
    // The path 0 to 10 and racks at 0 to 9, 9>10 to 0>1: the ninth leads, and the tenth follows it.
    let ten =
        "16 14 28 00 10 42 08 30 C4 10 51 46 18 71 C8 20 92 4A 00 10 83 10 51 87 20 90 42 0C 41 46 1C 82 4A";
    let plan = "00 00 28 24 A2 09 1C 81 87 14 61 05 0C 40 83 04 20 01";
    let two_steps = "00 00 08 08 08 30 C4 10 51 46 18 71 C8 20 92 4A 02 00 10 42";
    assert_eq!(made_record(timetable_make(ten, plan, 33)), (Ok(2), hex(two_steps)));
}

/// The answer, and the record without the bytes behind it, which are AA still.
fn made_record((answer, mut buffer): Made) -> Made {
    let behind = buffer.split_off(timetable::length(&buffer).unwrap());
    assert!(behind.iter().all(|&byte| byte == 0xAA));
    (answer, buffer)
}

#[test]
fn steps_refused() {
    assert_eq!(timetable_step("00 00", 1), refused(40, 0));
    assert_eq!(timetable_step("00 00 04", 0), refused(40, 0));
    assert_eq!(timetable_step("00 00 01", 0), refused(41, 0));
    assert_eq!(timetable_step("00 00 08 00 01 FF FF", 1), refused(41, 0)); // the pad of step 2
    assert_eq!(timetable_step("00 00 08 00 01 FF F0", 1), Ok((3, 1)));
    assert_eq!(timetable_step("00 00 08 00 01 FF F0", 2), Ok((4, 3)));
    assert_eq!(timetable_step("00 00 08 00 01 FF F0", u64::MAX), refused(45, 0));
    assert_eq!(timetable_step("00 00 00", 1), refused(45, 0));
}

#[test]
fn the_making_rule() {
    // 0>1 1>0: one rack's moves are one step apart.
    let home = "04 02 04 00 10 00";
    assert_eq!(timetable_make(home, "00 00 08 00 10 40", 9), (Ok(2), hex("00 00 08 01 00 10 01 04 00")));
    // No moves: s is 0, and only the head is written.
    assert_eq!(timetable_make(home, "00 00 00", 4), (Ok(0), hex("00 00 00 AA")));
    // The plan's refusal comes before the buffer's.
    assert_eq!(timetable_make(TWO, "00 00 00", 0), (refused(33, 1), vec![]));
    assert_eq!(timetable_make(TWO, "00 00 08 00 10 01", 0), (refused(34, 2), vec![]));
    assert_eq!(timetable_make(ORDER, "00 00 08 00 10 43", 8), (refused(35, 2), vec![0xAA; 8]));
    assert_eq!(timetable_make(home, "00 00 00", 2), refused_make(44, 2));
}

#[test]
fn small_floors() {
    assert_eq!(floor_check("02 00 00"), refused(20, 0)); // one position
    assert_eq!(floor_check("04 02 00 00 10"), refused(21, 0)); // two positions, no rack
    assert_eq!(floor_check(TWO), refused(20, 0));
    assert_eq!(floor_check("06 04 00 00 10 42"), refused(21, 0)); // path of three
    assert_eq!(floor_check("06 06 00 00 10 02 04 20"), Ok(())); // ring of three
    assert_eq!(floor_check("08 08 00 00 10 02 04 30 83"), Ok(())); // ring of four
    assert_eq!(floor_check("08 0A 00 00 10 02 04 20 43 08 30"), Ok(())); // F
    assert_eq!(floor_check("08 08 00 00 10 02 00 30 42"), refused(21, 0)); // four edges, not a ring
}

/// What is wrong with a planner that answers this and leaves this buffer, which was all AA; "" if nothing is.
fn planner_fault(order: &str, answer: Answer<u32>, plan: &str) -> String {
    let before = vec![0xAA; 1155];
    let mut after = before.clone();
    after[..hex(plan).len()].copy_from_slice(&hex(plan));
    planning::fault(&hex(order), &before, &after, answer).unwrap_or_default()
}

#[test]
fn a_planners_output() {
    let path = "08 06 04 00 10 42 08 30 03";
    let home = "08 0A 04 00 10 02 04 20 43 08 30 00"; // F, rack 1 from 0 to 0
    assert_eq!(planner_fault(ORDER, Ok(4), PLAN_TWO), "");
    assert_eq!(planner_fault(ORDER, Ok(4), &format!("{PLAN_TWO} 00")), "a byte behind the record changed");
    assert_eq!(planner_fault(ORDER, Ok(3), PLAN_TWO), "a byte behind the record changed"); // it has 4 moves
    assert!(planner_fault(ORDER, Ok(5), PLAN_TWO).contains("number: 30"));
    assert!(planner_fault(ORDER, Ok(4), PLAN).contains("number: 30")); // three bytes of AA are behind edition one
    assert!(planner_fault(ORDER, Ok(4), "00 00 11 00 10 43 08 10 80 04 10 C0").contains("number: 36"));
    assert!(planner_fault(ORDER, Ok(0), "00 00 01").contains("number: 33"));
    assert!(planner_fault(ORDER, Ok(0), "").contains("number: 30")); // never written
    assert!(planner_fault(ORDER, Ok(513), PLAN_TWO).contains("too many"));
    assert!(planner_fault(ORDER, refused(23, 0), "").contains("a plan is owed"));
    assert_eq!(planner_fault(path, refused(21, 0), ""), "");
    assert_eq!(planner_fault(path, refused(21, 0), "00"), "refused, and the buffer changed");
    assert!(planner_fault(path, refused(20, 0), "").contains("not Refusal { number: 21"));
    assert!(planner_fault(path, Ok(0), "").contains("not Refusal { number: 21"));
    assert_eq!(planner_fault(home, Ok(0), "00 00 01"), "");
    assert_eq!(planner_fault(home, Ok(0), "00 00 00"), "not edition two");
    assert!(planner_fault(home, Ok(2), "00 00 09 00 10 01 00 00").contains("each start is its goal"));
}
