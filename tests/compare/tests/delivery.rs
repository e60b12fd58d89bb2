//! Demand 3 in a run: the planner, the timetable maker on the plan just written, and the timetable checker
//! on the timetable just written, with exactly the maker's count of steps and the planner's of moves. The
//! three calls of the C interface are held to the second implementation, and the one function over all
//! three to them.

use compare::floors::{self, Shape};
use compare::orders;
use compare::packed;
use compare::proved;
use compare::random::Random;
use compare::tally::Hex;
use compare::write::Edition;
use second::answer::Answer;
use second::motion::NO_CAP;

/// The order of "Programs".
const CASE_BOOK: [u8; 14] =
    [0x08, 0x0A, 0x08, 0x00, 0x10, 0x02, 0x04, 0x20, 0x43, 0x08, 0x30, 0x03, 0x0C, 0x00];

/// What came of the planner's, the maker's and the checker's call: the number (0 where it is accepted),
/// the first count or the place, and the second count.
type Outcome = [[u64; 3]; 3];

const NOT_REACHED: [u64; 3] = [255, 0, 0];

fn told(answer: Answer<u32>) -> [u64; 3] {
    match answer {
        Ok(count) => [0, count.into(), 0],
        Err(refusal) => [refusal.number.into(), refusal.place.into(), 0],
    }
}

/// The three calls in turn, each record handed on alone, and each held to the second implementation.
fn in_turn(order: &[u8], plan: &mut [u8], timetable: &mut [u8]) -> Outcome {
    let before = plan.to_vec();
    let planned = packed::to_count(proved::plan_make(order, plan));
    assert_eq!(second::planning::fault(order, &before, plan, planned), None, "{}", Hex(order));
    let Ok(moves) = planned else { return [told(planned), NOT_REACHED, NOT_REACHED] };
    let plan = &plan[..Edition::Two.length(moves as usize)];

    let mut other = timetable.to_vec();
    let made = packed::to_count(proved::timetable_make(order, plan, timetable));
    assert_eq!(made, second::making::make(order, plan, &mut other), "{}", Hex(order));
    assert!(other == timetable, "the buffers differ: {}", Hex(order));
    if made.is_err() {
        return [told(planned), told(made), NOT_REACHED];
    }

    let end = second::timetable::length(timetable).expect("a timetable was written");
    assert_eq!(proved::timetable_length(timetable), end as u64, "{}", Hex(order));
    let checked = proved::timetable_check(order, &timetable[..end]);
    let second = second::timetable::check(order, &timetable[..end]);
    assert_eq!(checked, packed::steps_and_moves(second), "{}", Hex(order));
    [told(planned), told(made), [checked & 0xFF, checked >> 8 & 0x3F_FFFF, checked >> 30]]
}

/// The one function: its outcome and both buffers are those of the three calls in turn.
fn compare(order: &[u8], plan: &[u8], timetable: &[u8]) -> Outcome {
    let (mut plan_after, mut timetable_after) = (plan.to_vec(), timetable.to_vec());
    let expected = in_turn(order, &mut plan_after, &mut timetable_after);
    for (call, values) in (0..).zip(expected) {
        for (value, expected) in (0..).zip(values) {
            let (mut plan, mut timetable) = (plan.to_vec(), timetable.to_vec());
            let found = proved::inspect_delivery(order, &mut plan, &mut timetable, call, value);
            assert_eq!(found, expected, "value {value} of call {call}, on {}", Hex(order));
            assert!(plan == plan_after && timetable == timetable_after, "the buffers differ: {}", Hex(order));
        }
    }
    expected
}

/// How many moves the planner gives an order that it plans.
fn moves_of(order: &[u8], plan: &[u8]) -> usize {
    packed::to_count(proved::plan_make(order, &mut plan.to_vec())).map_or(0, |moves| moves as usize)
}

/// Whether the plan's timetable without the cap of eight has longer trains.
fn has_longer_trains(order: &[u8], plan: &[u8]) -> bool {
    let k = second::plan::check(order, plan).expect("a sound plan");
    let mut uncapped = vec![0; 3 * k as usize + 3];
    second::making::make_with_cap(order, plan, &mut uncapped, NO_CAP).expect("a sound plan");
    let end = second::timetable::length(&uncapped).expect("a timetable was written");
    second::timetable::check(order, &uncapped[..end]).is_err()
}

#[test]
fn plan_then_timetable_then_check() {
    let mut random = Random::new(0x5EED_8001);
    let (mut delivered, mut all_moves, mut all_steps, mut capped) = (0, 0, 0, 0);
    for _ in 0..3_000 {
        let n = if random.one_in(10) { random.between(20, 64) } else { random.between(4, 12) };
        let floor = floors::four_sided(&mut random, n);
        if floor.edges.len() == n {
            continue; // a ring
        }
        let m = random.between(0, n - 2);
        let order = orders::order_on(&mut random, &floor, m).record();
        let mut plan = random.bytes(18 * n.pow(3) + 3);
        let mut timetable = random.bytes(3 * moves_of(&order, &plan) + 3);
        let [[planned, moves, _], [made, steps, _], checked] = in_turn(&order, &mut plan, &mut timetable);
        assert_eq!([planned, made], [0, 0], "{}", Hex(&order));
        assert_eq!(checked, [0, steps, moves], "{}", Hex(&order));
        delivered += 1;
        all_moves += moves;
        all_steps += steps;
        capped += u32::from(has_longer_trains(&order, &plan[..Edition::Two.length(moves as usize)]));
    }
    println!("delivery: {delivered} orders, {all_moves} moves in {all_steps} steps");
    println!("  with trains that would be longer than eight {capped}");
    assert!(delivered >= 1_000, "{delivered} orders only");
    assert!(capped >= 50, "{capped} orders with trains that would be longer only");
}

#[test]
fn the_function_over_the_three_calls() {
    let mut random = Random::new(0x5EED_8002);
    let (mut unplanned, mut untimed, mut checked) = (0, 0, 0);
    for _ in 0..3_000 {
        let n = random.between(4, 9);
        let floor = match random.below(8) {
            0 => floors::floor_of_shape(&mut random, Shape::Ring),
            1 => floors::bi_connected(&mut random, n),
            _ => floors::four_sided(&mut random, n),
        };
        let m = random.between(0, floor.n.saturating_sub(1));
        let fields = orders::order_on(&mut random, &floor, m);
        let order = match random.one_in(8) {
            true => orders::damaged_often(&mut random, &fields),
            false => fields.record(),
        };
        let length = (18 * floor.n.pow(3) + 3 + random.below(20)).saturating_sub(random.below(8));
        let plan = random.bytes(length);
        let length = (3 * moves_of(&order, &plan) + 3 + random.below(20)).saturating_sub(random.below(20));
        let timetable = random.bytes(length);
        match compare(&order, &plan, &timetable) {
            [[0, moves, _], [0, steps, _], last] => {
                assert_eq!(last, [0, steps, moves], "{}", Hex(&order));
                checked += 1;
            }
            [[0, _, _], refused, last] => {
                assert_eq!([refused, last], [[44, 0, 0], NOT_REACHED], "{}", Hex(&order));
                untimed += 1;
            }
            [_, maker, checker] => {
                assert_eq!([maker, checker], [NOT_REACHED, NOT_REACHED], "{}", Hex(&order));
                unplanned += 1;
            }
        }
    }
    println!("delivery: {checked} checked, {untimed} without a timetable, {unplanned} without a plan");
    assert!(checked >= 300 && untimed >= 300 && unplanned >= 300);
}

#[test]
fn the_case_books_order() {
    let mut random = Random::new(0x5EED_8003);
    let plan = random.bytes(1155);
    let k = moves_of(&CASE_BOOK, &plan);
    assert!(k > 0);
    let moves = [0, k as u64, 0];
    let timetable = random.bytes(3 * k + 3);
    assert_eq!(compare(&CASE_BOOK, &plan[..1154], &timetable), [[23, 0, 0], NOT_REACHED, NOT_REACHED]);
    assert_eq!(compare(&CASE_BOOK, &plan, &timetable[..3 * k + 2]), [moves, [44, 0, 0], NOT_REACHED]);
    let [planned, [made, steps, _], checked] = compare(&CASE_BOOK, &plan, &timetable);
    assert_eq!([planned, checked], [moves, [0, steps, k as u64]]);
    assert_eq!(made, 0);
}
