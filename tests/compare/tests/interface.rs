//! What a person and a C programmer are given, held to sources that are not the product: the header's numbers to
//! the faults of the code, the orders and plans in examples/ to their fields, and what the examples are expected
//! to print to the second implementation. Where an expectation is out of date, the failure prints the text that is
//! due.

use std::collections::BTreeMap;
use std::fs;
use std::path::{Path, PathBuf};

use compare::floors::{self, Floor};
use compare::packed;
use compare::proved;
use compare::rings;
use compare::write::{Drive, Edition, Order, Plan, ShortOrder};
use second::program::timetable_program;

/// A file of the repository.
fn file(name: &str) -> Vec<u8> {
    let path: PathBuf = Path::new(env!("CARGO_MANIFEST_DIR")).join("../..").join(name);
    fs::read(&path).unwrap_or_else(|error| panic!("{}: {error}", path.display()))
}

fn text(name: &str) -> String {
    String::from_utf8(file(name)).expect("ASCII")
}

/// `NotBiconnected` as `NOT_BICONNECTED`.
fn upper_snake(name: &str) -> String {
    let mut upper = String::new();
    for letter in name.chars() {
        if letter.is_uppercase() && !upper.is_empty() {
            upper.push('_');
        }
        upper.push(letter.to_ascii_uppercase());
    }
    upper
}

/// The lines of a text that read `PREFIX name MIDDLE number`, with what follows the number up to a comma or space.
fn numbers(text: &str, prefix: &str, middle: &str) -> BTreeMap<String, u32> {
    text.lines()
        .filter_map(|line| {
            let (name, rest) = line.trim().strip_prefix(prefix)?.split_once(middle)?;
            let digits: String = rest.chars().take_while(char::is_ascii_digit).collect();
            Some((name.to_string(), digits.parse().ok()?))
        })
        .collect()
}

#[test]
fn the_headers_numbers_are_the_faults_of_the_code() {
    let code = text("crates/answers/src/lib.rt");
    let (_, cases) = code.split_once("pub enum Fault {").expect("the enum of faults");
    let (cases, _) = cases.split_once("\n}").expect("its end");
    let faults = numbers(cases, "", " = ");
    let mut expected: BTreeMap<String, u32> =
        faults.iter().map(|(name, &number)| (upper_snake(name), number)).collect();
    expected.insert("ACCEPTED".to_string(), 0);
    assert!(faults.len() >= 31, "only {} faults were found", faults.len());
    assert_eq!(numbers(&text("include/wichteab.h"), "WICHTEAB_", " = "), expected);
}

/// The case book's order: the floor F, rack 1 from 0 to 3, rack 2 from 3 to 0.
fn casebook() -> Order {
    let edges = vec![(0, 1), (0, 2), (1, 2), (1, 3), (2, 3)];
    Order { n: 4, edges, starts: vec![0, 3], goals: vec![3, 0], spare: 0, pad: 0 }
}

/// The moves of the case book's plan, each with the rack that it moves.
const CASEBOOK_DRIVES: [Drive; 4] = [((0, 1), 1), ((3, 2), 2), ((2, 0), 2), ((1, 3), 1)];

fn casebook_plan(edition: Edition) -> Plan {
    Plan::new(edition, CASEBOOK_DRIVES.to_vec())
}

/// 4 by 4 positions, numbered row by row, side neighbours joined. Racks 1 to 14 stand at 0 to 13; 14 and 15 are vacant.
/// Rack 6 is called from the middle of the floor, position 5, to the corner 15, and every other rack is to stand where
/// it stood.
fn four_by_four() -> Order {
    let Floor { n, edges } = floors::grid(4, 4);
    let starts: Vec<u8> = (0..14).collect();
    let mut goals = starts.clone();
    goals[5] = 15;
    Order { n, edges, starts, goals, spare: 0, pad: 0 }
}

/// Model 2, 3 by 4 positions: racks 1 to 10 stand at 0 to 9, and rack 6 is called from position 5 to the corner 11.
fn depot() -> ShortOrder {
    let starts: Vec<u8> = (0..10).collect();
    let mut goals = starts.clone();
    goals[5] = 11;
    ShortOrder { model: 2, starts, goals, spare: 0, pad: 0 }
}

/// The full order that it stands for.
fn depot_in_full() -> Order {
    let Floor { n, edges } = floors::grid(3, 4);
    let ShortOrder { starts, goals, .. } = depot();
    Order { n, edges, starts, goals, spare: 0, pad: 0 }
}

/// Ten positions in a ring and nine racks, each to go one position on. The foremost goes into the one vacancy, the next
/// where it stood, and so on: a train of nine.
fn ring_of_ten() -> Order {
    let Floor { n, edges } = rings::ring(&(0..10).collect::<Vec<usize>>());
    Order { n, edges, starts: (0..9).collect(), goals: (1..10).collect(), spare: 0, pad: 0 }
}

#[test]
fn the_orders_and_plans_in_examples_are_the_records_of_their_fields() {
    assert_eq!(file("examples/casebook.order"), casebook().record());
    assert_eq!(file("examples/casebook.plan"), casebook_plan(Edition::One).record());
    assert_eq!(file("examples/casebook_two.plan"), casebook_plan(Edition::Two).record());
    assert_eq!(file("examples/four_by_four.order"), four_by_four().record());
    assert_eq!(file("examples/ring_of_ten.order"), ring_of_ten().record());
    assert_eq!(file("examples/depot.short"), depot().record());
    assert_eq!(second::models::expand(&depot().record(), 576), Ok(depot_in_full().record()));
}

/// The proved planner's plan in a buffer of this length, judged by the second implementation.
fn plan(order: &[u8], lent: usize) -> Vec<u8> {
    let before = vec![0x55; lent];
    let mut buffer = before.clone();
    let answer = packed::to_count(proved::plan_make(order, &mut buffer));
    assert_eq!(second::planning::fault(order, &before, &buffer, answer), None);
    buffer.truncate(Edition::Two.length(answer.expect("planned") as usize));
    buffer
}

/// What examples/order.c prints.
fn described(order: &Order) -> String {
    let (n, e, m) = (order.n, order.edges.len(), order.starts.len());
    let edges: Vec<String> = order.edges.iter().map(|(a, b)| format!("{a}-{b}")).collect();
    let mut lines = format!("positions {n} edges {e} racks {m} vacant {}\n{}\n", n - m, edges.join(" "));
    for (index, (start, goal)) in order.starts.iter().zip(&order.goals).enumerate() {
        lines += &format!("rack {} from {start} to {goal}\n", index + 1);
    }
    lines
}

/// What examples/delivery.c prints, which lends as much as the floor asks for.
fn delivered(order: &Order) -> String {
    let record = order.record();
    let plan = plan(&record, 18 * order.n.pow(3) + 3);
    let k = second::plan::check(&record, &plan).expect("accepted");
    let mut timetable = vec![0; 3 * k as usize + 3];
    let s = second::making::make(&record, &plan, &mut timetable).expect("made");
    let end = second::timetable::length(&timetable).expect("whole");
    let counts = second::timetable::check(&record, &timetable[..end]).expect("accepted");
    format!(
        "plan: moves {k} bytes {}\ntimetable: steps {s} bytes {end}\nchecked: steps {} moves {}\n",
        plan.len(),
        counts.steps,
        counts.moves
    )
}

/// What a name, an order and the programs print: the plan program lends 65,536 bytes.
fn planned_and_timed(name: &str, order: &Order) -> String {
    let record = order.record();
    let timetable = timetable_program(&[record.clone(), plan(&record, 65_536)].concat());
    format!("{name}\n{}\n{timetable}", described(order))
}

#[test]
fn what_examples_run_prints() {
    let stored_plan = |name: &str, edition: Edition| {
        let input = [casebook().record(), casebook_plan(edition).record()].concat();
        format!("{name}\n{}", timetable_program(&input))
    };
    let expected = [
        planned_and_timed("examples/casebook.order", &casebook()),
        stored_plan("examples/casebook.plan", Edition::One),
        stored_plan("examples/casebook_two.plan", Edition::Two),
        planned_and_timed("examples/depot.short", &depot_in_full()),
        planned_and_timed("examples/ring_of_ten.order", &ring_of_ten()),
        format!(
            "examples/four_by_four.order\n{}\n{}",
            described(&four_by_four()),
            delivered(&four_by_four())
        ),
    ]
    .join("\n");
    assert!(text("examples/run.expected") == expected, "examples/run.expected is due to read:\n{expected}");
}

#[test]
fn what_the_delivery_example_prints() {
    let expected = delivered(&four_by_four());
    assert!(
        text("examples/delivery.expected") == expected,
        "examples/delivery.expected is due to read:\n{expected}"
    );
}

/// What stands where after so many steps, and the step's moves before it, from the second implementation; the reason of
/// 60 stands in the header.
#[test]
fn what_the_controller_example_prints() {
    use second::live::{call, Call, Picture, Role, CLOSED};
    let order = file("examples/casebook.order");
    let timetable = file("examples/casebook.timetable");
    let steps = [["0>1", "3>2"], ["1>3", "2>0"]].map(|moves| format!("run {}\n", moves.join(" ")));
    let mut picture = CLOSED;
    let mut expected = String::new();
    let shown = |picture: &Picture| {
        let row = picture.racks[..picture.positions as usize].iter();
        let row: Vec<String> =
            row.map(|&rack| if rack == 0 { ".".into() } else { rack.to_string() }).collect();
        format!("{}: {}\n", picture.steps, row.join(" "))
    };
    let mut made = |kind: Call, role: Role, line: &str| {
        let answer = call(&mut picture, kind, Some(role), &order, &timetable);
        expected += &match answer {
            Ok(_) => line.to_string() + &shown(&picture),
            Err(refusal) => {
                format!("refused {} {} other: {}\n", refusal.number, refusal.place, reason_of_60())
            }
        };
    };
    made(Call::Open, Role::Viewer, "");
    made(Call::Run, Role::Viewer, "");
    made(Call::Run, Role::Operator, &steps[0]);
    made(Call::Run, Role::Operator, &steps[1]);
    made(Call::TakeBack, Role::Supervisor, "taken back\n");
    made(Call::Run, Role::Supervisor, &steps[1]);
    assert!(
        text("examples/controller.expected") == expected,
        "examples/controller.expected is due to read:\n{expected}"
    );
}

/// The header's sentence for 60.
fn reason_of_60() -> String {
    let header = text("include/wichteab.h");
    let (_, behind) = header.split_once("case WICHTEAB_FLOOR_RIGHT:").expect("a reason");
    behind.split('"').nth(1).expect("a sentence").to_string()
}

/// A line for each move: its number, its rack and its positions.
#[test]
fn what_the_screen_example_prints() {
    let line = |(number, ((left, entered), rack)): (usize, &Drive)| {
        format!("{} rack {rack} {left}>{entered}\n", number + 1)
    };
    let expected: String = CASEBOOK_DRIVES.iter().enumerate().map(line).collect();
    assert!(
        text("examples/screen.expected") == expected,
        "examples/screen.expected is due to read:\n{expected}"
    );
}

/// A season of 3,000 pairs, longer than the season program reads: the case book's order with its timetable, and the ring
/// of ten with the same one, which is refused there.
#[test]
fn what_the_season_example_prints() {
    let timetable = file("examples/casebook.timetable");
    let season =
        [casebook().record(), timetable.clone(), ring_of_ten().record(), timetable].concat().repeat(1_500);
    assert!(season.len() > 65_536, "the program would do");
    let report = second::season::report(&season).expect("whole");
    let expected = format!(
        "accepted {}\nrefused {}\nsteps {}\nmoves {}\nparallelism {}\n",
        report.accepted,
        report.refused,
        report.steps,
        report.moves,
        report.parallelism().expect("there are steps")
    );
    assert!(
        text("examples/season.expected") == expected,
        "examples/season.expected is due to read:\n{expected}"
    );
}
