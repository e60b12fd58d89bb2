//! The timetable program, as a user runs it: standard input in, standard output out. What it has to print
//! is written here from document 01, or comes from the second implementation.

use compare::plans;
use compare::programs;
use compare::random::Random;
use compare::write::{Move, Order, Plan};
use second::program::timetable_program;

/// What the program prints for this input.
fn printed(input: &[u8]) -> String {
    String::from_utf8(programs::written("timetable_main", input)).expect("ASCII")
}

fn hex(text: &str) -> Vec<u8> {
    text.split_whitespace().map(|byte| u8::from_str_radix(byte, 16).unwrap()).collect()
}

/// The order of "Programs": the floor F, rack 1 from 0 to 3, rack 2 from 3 to 0.
const ORDER: &str = "08 0A 08 00 10 02 04 20 43 08 30 03 0C 00";
/// The plan of "Programs", and the same in edition two: racks 1, 2, 2 and 1.
const PLAN: &str = "00 00 10 00 10 C2 08 00 43";
const PLAN_TWO: &str = "00 00 11 00 10 03 08 10 80 04 10 C0";

/// The order of "Programs", followed by these bytes in hexadecimal.
fn followed_by(plan: &str) -> Vec<u8> {
    [hex(ORDER), hex(plan)].concat()
}

fn order(n: usize, edges: &[Move], starts: &[u8], goals: &[u8]) -> Vec<u8> {
    Order { n, edges: edges.to_vec(), starts: starts.to_vec(), goals: goals.to_vec(), spare: 0, pad: 0 }
        .record()
}

fn plan(moves: Vec<Move>) -> Vec<u8> {
    Plan::of_moves(&moves).record()
}

/// A rack that goes to and fro k times between two positions.
fn to_and_fro(k: usize) -> Vec<Move> {
    (0..k).map(|index| if index % 2 == 0 { (0, 1) } else { (1, 0) }).collect()
}

#[test]
fn the_worked_example() {
    assert_eq!(printed(&followed_by(PLAN)), "steps 2 moves 4\n1 0>1 3>2\n2 1>3 2>0\n");
    assert_eq!(printed(&followed_by(PLAN_TWO)), "steps 2 moves 4\n1 0>1 3>2\n2 1>3 2>0\n");
}

/// "In the making rule, a move that would be ninth goes one step later."
#[test]
fn a_row_of_nine_racks() {
    let edges: Vec<Move> = (0..9).map(|at| (at, at + 1)).collect();
    let (starts, goals): (Vec<u8>, Vec<u8>) = edges.iter().copied().unzip();
    let front_first = edges.iter().copied().rev().collect();
    let input = [order(10, &edges, &starts, &goals), plan(front_first)].concat();
    assert_eq!(printed(&input), "steps 2 moves 9\n1 1>2 2>3 3>4 4>5 5>6 6>7 7>8 8>9\n2 0>1\n");
}

#[test]
fn no_moves() {
    let still = order(4, &[(0, 1)], &[0, 2], &[0, 2]);
    assert_eq!(printed(&[still.clone(), hex("00 00 00")].concat()), "steps 0 moves 0\n");
    assert_eq!(printed(&[still, hex("00 00 01")].concat()), "steps 0 moves 0\n");
}

#[test]
fn what_is_cut_short_is_an_order() {
    assert_eq!(printed(&[]), "refused 10 0 order\n");
    assert_eq!(printed(&hex("08 0A")), "refused 10 0 order\n");
    assert_eq!(printed(&hex(ORDER)[..13]), "refused 10 0 order\n");
    assert_eq!(printed(&hex(ORDER)), "refused 30 0 plan\n");
}

#[test]
fn each_refusal() {
    // n = 65; n = 0; a spare bit; the order above with a pad bit
    assert_eq!(printed(&hex("82 00 00")), "refused 11 0 order\n");
    assert_eq!(printed(&hex("00 00 00")), "refused 11 0 order\n");
    assert_eq!(printed(&hex("02 00 01")), "refused 12 0 order\n");
    assert_eq!(printed(&hex("08 0A 08 00 10 02 04 20 43 08 30 03 0C 01")), "refused 12 0 order\n");
    assert_eq!(printed(&order(2, &[(1, 0)], &[], &[])), "refused 13 0 order\n");
    assert_eq!(printed(&order(3, &[], &[1, 1], &[1, 2])), "refused 14 0 order\n");
    // a plan of two bytes; of one move too few, by its length; with spare bits 10 and 11; with a pad bit
    assert_eq!(printed(&followed_by("00 00")), "refused 30 0 plan\n");
    assert_eq!(printed(&followed_by("00 00 10 00 10 C2 08 00")), "refused 30 0 plan\n");
    assert_eq!(printed(&followed_by("00 00 02")), "refused 31 0 plan\n");
    assert_eq!(printed(&followed_by("00 00 03")), "refused 31 0 plan\n");
    assert_eq!(printed(&followed_by("00 00 04 00 11")), "refused 31 0 plan\n");
    // 0>3, where no edge is; 1>2, where no rack is; 0>1, then 1>3, where rack 2 stands
    assert_eq!(printed(&followed_by("00 00 04 00 30")), "refused 32 1 plan\n");
    assert_eq!(printed(&followed_by("00 00 04 04 20")), "refused 34 1 plan\n");
    assert_eq!(printed(&followed_by("00 00 08 00 10 43")), "refused 35 2 plan\n");
    // in edition two: a move of 12 bits; a pad bit; 0>1 with rack 2 written, and with rack 64
    assert_eq!(printed(&followed_by("00 00 05 00 10")), "refused 30 0 plan\n");
    assert_eq!(printed(&followed_by("00 00 05 00 10 20")), "refused 31 0 plan\n");
    assert_eq!(printed(&followed_by("00 00 05 00 10 40")), "refused 36 1 plan\n");
    assert_eq!(printed(&followed_by("00 00 05 00 1F C0")), "refused 36 1 plan\n");
    // the empty plan: rack 1 stays; a plan that brings rack 1 to its goal alone
    assert_eq!(printed(&followed_by("00 00 00")), "refused 33 1 plan\n");
    assert_eq!(printed(&followed_by("00 00 01")), "refused 33 1 plan\n");
    let edges = [(0, 1), (0, 2), (1, 2), (1, 3), (2, 3)];
    let one_of_two = [order(4, &edges, &[0, 1], &[3, 2]), plan(vec![(0, 2), (2, 3)])].concat();
    assert_eq!(printed(&one_of_two), "refused 33 2 plan\n");
}

#[test]
fn the_lent_buffer() {
    // 3 × 21,844 + 3 bytes are 65,535, and one move more does not fit
    for (k, fits) in [(21_844, true), (21_845, false)] {
        let input = [order(2, &[(0, 1)], &[0], &[(k % 2) as u8]), plan(to_and_fro(k))].concat();
        let text = printed(&input);
        if fits {
            let mut expected = format!("steps {k} moves {k}\n");
            to_and_fro(k).iter().zip(1..).for_each(|((left, entered), step)| {
                expected += &format!("{step} {left}>{entered}\n");
            });
            assert!(text == expected);
        } else {
            assert_eq!(text, "refused 44 0 timetable\n");
        }
    }
}

#[test]
fn an_input_of_more_than_65_536_bytes() {
    // An order of 8 bytes and a plan of 65,528: what stands behind is not read, so the plan has its length.
    let k = 43_683;
    let order = order(3, &[(0, 1), (1, 2)], &[0], &[1]);
    let exact = [order.clone(), plan(to_and_fro(k))].concat();
    assert_eq!((order.len(), exact.len()), (8, 65_536));
    assert_eq!(printed(&exact), "refused 44 0 timetable\n");
    assert_eq!(printed(&[&exact[..], &[0xFF]].concat()), "refused 44 0 timetable\n");
    assert_eq!(printed(&[&exact[..], &[0x5A; 200_000]].concat()), "refused 44 0 timetable\n");
    // The plan of "Programs" with bytes behind it has not the length that its count gives, however many they are.
    assert_eq!(printed(&[followed_by(PLAN), vec![0; 70_000]].concat()), "refused 30 0 plan\n");
}

#[test]
fn random_plans_against_the_second_implementation() {
    let mut random = Random::new(0x5EED_7001);
    let mut steps = 0;
    for _ in 0..600 {
        let (_, case) = plans::random_case(&mut random);
        let input = [case.order, case.record].concat();
        let expected = timetable_program(&input);
        assert!(printed(&input) == expected, "{expected}: {input:02X?}");
        steps += usize::from(expected.starts_with("steps"));
    }
    assert!(steps > 60, "only {steps} plans were accepted");
}
