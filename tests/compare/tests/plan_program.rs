//! The plan program, as a user runs it, alone and with the timetable program. Its lines are written here from
//! document 01; which moves a plan has is free, so plans are judged by the second implementation.

use std::fs;
use std::path::Path;
use std::process::Command;

use compare::floors::{self, Floor};
use compare::orders;
use compare::programs;
use compare::random::Random;
use compare::tally::Hex;
use compare::write::{Move, Order};
use second::plan;
use second::program::{plan_program_fault, timetable_program};

/// What the program writes for this input, after the second implementation judged it.
fn written(input: &[u8]) -> Vec<u8> {
    let written = programs::written("plan_main", input);
    if let Some(fault) = plan_program_fault(input, &written) {
        panic!("{fault}: {} on {}", Hex(&written), Hex(input));
    }
    written
}

/// The line that it prints.
fn line(input: &[u8]) -> String {
    String::from_utf8(written(input)).expect("ASCII")
}

fn hex(text: &str) -> Vec<u8> {
    text.split_whitespace().map(|byte| u8::from_str_radix(byte, 16).unwrap()).collect()
}

fn order(n: usize, edges: &[Move], starts: &[u8], goals: &[u8]) -> Vec<u8> {
    Order { n, edges: edges.to_vec(), starts: starts.to_vec(), goals: goals.to_vec(), spare: 0, pad: 0 }
        .record()
}

/// The order of "Programs": the floor F, rack 1 from 0 to 3, rack 2 from 3 to 0.
const ORDER: &str = "08 0A 08 00 10 02 04 20 43 08 30 03 0C 00";
/// F's edges.
const F: [Move; 5] = [(0, 1), (0, 2), (1, 2), (1, 3), (2, 3)];

/// A ring of n positions with one edge across it.
fn ring_with_a_chord(n: usize) -> Floor {
    Floor::new(n, (0..n).map(|at| (at, (at + 1) % n)).chain([(0, 2)]))
}

/// All but two of its positions hold a rack, and each goes one position on.
fn all_go_on(n: usize) -> Vec<u8> {
    let starts: Vec<u8> = (0..n as u8 - 2).collect();
    let goals: Vec<u8> = (1..n as u8 - 1).collect();
    order(n, &ring_with_a_chord(n).edges, &starts, &goals)
}

#[test]
fn the_order_of_programs() {
    let plan = written(&hex(ORDER));
    let moves = plan::check(&hex(ORDER), &plan).expect("it was judged");
    assert!(moves > 0);
    // the stored run of the program: the same bytes, which the second implementation accepts
    let stored = Path::new(env!("CARGO_MANIFEST_DIR")).join("../../crates/plan_main");
    assert_eq!(fs::read(stored.join("stdin")).unwrap(), hex(ORDER));
    assert_eq!(fs::read(stored.join("stdout")).unwrap(), plan);
}

#[test]
fn what_is_no_order() {
    // no input; two bytes; the order above without its last byte, and with one more
    assert_eq!(line(&[]), "refused 10 0 order\n");
    assert_eq!(line(&hex("08 0A")), "refused 10 0 order\n");
    assert_eq!(line(&hex(ORDER)[..13]), "refused 10 0 order\n");
    assert_eq!(line(&[hex(ORDER), vec![0]].concat()), "refused 10 0 order\n");
    // n = 65; n = 0; a spare bit; the order above with a pad bit
    assert_eq!(line(&hex("82 00 00")), "refused 11 0 order\n");
    assert_eq!(line(&hex("00 00 00")), "refused 11 0 order\n");
    assert_eq!(line(&hex("02 00 01")), "refused 12 0 order\n");
    assert_eq!(line(&hex("08 0A 08 00 10 02 04 20 43 08 30 03 0C 01")), "refused 12 0 order\n");
    assert_eq!(line(&order(2, &[(1, 0)], &[], &[])), "refused 13 0 order\n");
    assert_eq!(line(&order(3, &[], &[1, 1], &[1, 2])), "refused 14 0 order\n");
}

#[test]
fn what_no_floor_is_for() {
    // F with three racks; a path of three with two, which 21 fits too; a path of four; a ring the other way round
    assert_eq!(line(&order(4, &F, &[0, 1, 2], &[1, 2, 0])), "refused 20 0 floor\n");
    assert_eq!(line(&order(3, &[(0, 1), (1, 2)], &[0, 1], &[1, 2])), "refused 20 0 floor\n");
    assert_eq!(line(&order(4, &[(0, 1), (1, 2), (2, 3)], &[0], &[3])), "refused 21 0 floor\n");
    let ring = [(0, 1), (0, 3), (1, 2), (2, 3)];
    assert_eq!(line(&order(4, &ring, &[0, 1, 2], &[2, 1, 0])), "refused 24 0 floor\n");
    assert_eq!(line(&order(4, &ring, &[0, 1, 2, 3], &[0, 1, 2, 3])), "refused 20 0 floor\n");
}

/// A position in the middle of a ring of so many others, joined to each.
fn spokes(sides: u8) -> Vec<Move> {
    let rim = (1..sides).map(|at| (at, at + 1)).chain([(1, sides)]);
    let mut edges: Vec<Move> = (1..=sides).map(|at| (0, at)).chain(rim).collect();
    edges.sort_unstable();
    edges
}

#[test]
fn what_has_more_than_four_sides() {
    // four spokes are planned, five are not: with no racks, with each start its goal, and with 16 positions
    assert_eq!(written(&order(5, &spokes(4), &[0, 1], &[0, 1])), hex("00 00 01"));
    assert_eq!(line(&order(6, &spokes(5), &[0, 1], &[1, 0])), "refused 26 0 floor\n");
    assert_eq!(line(&order(6, &spokes(5), &[], &[])), "refused 26 0 floor\n");
    assert_eq!(line(&order(6, &spokes(5), &[0, 1], &[0, 1])), "refused 26 0 floor\n");
    assert_eq!(line(&order(16, &spokes(15), &[], &[])), "refused 26 0 floor\n");
    // 20 and 21 come before it
    assert_eq!(line(&order(6, &spokes(5), &[0, 1, 2, 3, 4], &[0, 1, 2, 3, 4])), "refused 20 0 floor\n");
    assert_eq!(line(&order(6, &spokes(5)[..5], &[0], &[1])), "refused 21 0 floor\n");
}

#[test]
fn fifteen_positions_are_planned_and_sixteen_are_not() {
    for n in 4..=15 {
        assert!(written(&all_go_on(n)).len() > 3, "no moves with {n} positions");
    }
    for n in 16..=64 {
        assert_eq!(line(&all_go_on(n)), "refused 23 0 floor\n");
    }
    // nor are they where no move is needed, or no rack is there
    let edges = ring_with_a_chord(16).edges;
    assert_eq!(line(&order(16, &edges, &[0, 1], &[0, 1])), "refused 23 0 floor\n");
    assert_eq!(line(&order(16, &edges, &[], &[])), "refused 23 0 floor\n");
}

#[test]
fn no_moves() {
    // no racks; each start its goal: edition two, and no moves
    assert_eq!(written(&order(4, &F, &[], &[])), hex("00 00 01"));
    assert_eq!(written(&order(4, &F, &[0, 3], &[0, 3])), hex("00 00 01"));
    assert_eq!(written(&order(4, &F, &[2, 1], &[2, 1])), hex("00 00 01"));
    // one rack that is where it has to be, and one that is not
    assert_ne!(written(&order(4, &F, &[0, 3], &[0, 2])), hex("00 00 01"));
}

#[test]
fn nothing_behind_the_record() {
    // every order of two racks on F: the length is the one that the count gives in edition two, with each pad
    let places: Vec<[u8; 2]> =
        (0..4).flat_map(|a| (0..4).filter(move |&b| a != b).map(move |b| [a, b])).collect();
    let mut by_pad = [0; 4];
    for starts in &places {
        for goals in &places {
            let record = written(&order(4, &F, starts, goals));
            let k = usize::from(record[1]) * 64 + usize::from(record[2] / 4);
            assert!(record[0] == 0 && record[2] % 4 == 1, "{}", Hex(&record));
            assert_eq!(record.len(), 3 + (18 * k).div_ceil(8), "{}", Hex(&record));
            by_pad[k % 4] += 1;
        }
    }
    assert!(by_pad.iter().all(|&records| records > 10), "records by their count of moves mod 4: {by_pad:?}");
}

#[test]
fn an_input_of_more_than_65_536_bytes() {
    // No order is so long. What is read of it is judged: its length, and not the bytes behind.
    for length in [65_535, 65_536, 65_537, 300_000] {
        let mut input = hex(ORDER);
        input.resize(length, 0xFF);
        assert_eq!(line(&input), "refused 10 0 order\n");
    }
}

#[test]
fn random_orders() {
    let mut random = Random::new(0x5EED_9001);
    let (mut plans, mut moves) = (0, 0);
    for _ in 0..1_000 {
        let record = match random.below(4) {
            0 => orders::random_order(&mut random).record(),
            1 => {
                let order = orders::random_order(&mut random);
                let damage = orders::random_damage(&mut random, &order);
                orders::damaged(&mut random, &order, damage)
            }
            _ => {
                let n = random.between(4, 16);
                let floor = floors::four_sided(&mut random, n);
                let m = if random.one_in(2) { n - 2 } else { random.between(0, n - 2) };
                orders::order_on(&mut random, &floor, m).record()
            }
        };
        if let Ok(k) = plan::check(&record, &written(&record)) {
            plans += 1;
            moves += k;
        }
    }
    println!("plan_main: {plans} plans of {moves} moves");
    assert!(plans > 300, "only {plans} orders were planned");
}

/// What the shell prints for the order: the plan made of it, and behind the order the timetable of that plan.
fn in_a_shell(folder: &Path, order: &[u8]) -> (Vec<u8>, String) {
    fs::write(folder.join("order"), order).expect("it is written");
    let script = "\"$1\" <order >plan && cat order plan | \"$2\"";
    let ran = Command::new("sh")
        .args(["-c", script, "sh"])
        .args([programs::path("plan_main"), programs::path("timetable_main")])
        .current_dir(folder)
        .output()
        .expect("it runs");
    assert!(ran.status.success() && ran.stderr.is_empty());
    let plan = fs::read(folder.join("plan")).expect("it was written");
    (plan, String::from_utf8(ran.stdout).expect("ASCII"))
}

#[test]
fn the_two_programs_together() {
    let folder = Path::new(env!("CARGO_TARGET_TMPDIR")).join("plan_program");
    fs::create_dir_all(&folder).expect("it is made");
    let mut random = Random::new(0x5EED_9002);
    let mut all = vec![hex(ORDER), order(4, &F, &[0, 3], &[0, 3]), order(4, &F, &[], &[])];
    all.extend((4..=15).map(all_go_on));
    all.extend((0..100).map(|_| {
        let (rows, columns) = random.pick(&[(2, 3), (3, 3), (2, 5), (3, 4), (2, 7), (3, 5)]);
        let m = random.between(0, rows * columns - 2);
        orders::order_on(&mut random, &floors::grid(rows, columns), m).record()
    }));
    for order in all {
        let (plan, timetable) = in_a_shell(&folder, &order);
        assert_eq!(plan_program_fault(&order, &plan), None, "{}", Hex(&order));
        let expected = timetable_program(&[order.clone(), plan.clone()].concat());
        assert!(expected.starts_with("steps "), "{expected}: {}", Hex(&order));
        assert!(timetable == expected, "{}", Hex(&order));
    }
}
