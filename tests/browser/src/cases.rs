//! The ten timetables. The proved planner and timetable maker make them, but for the full train's plan, which is made by hand.

use compare::floors::{self, Floor};
use compare::proved;
use compare::random::Random;
use compare::write::{self, Edition, Plan};
use second::record::{pair, positions};
use wichteab_tool::records::{Order, Timetable};

/// An order and a timetable of it, as records and as the player takes them.
pub struct Case {
    pub name: &'static str,
    pub title: &'static str,
    pub order_record: Vec<u8>,
    pub timetable_record: Vec<u8>,
    pub order: Order,
    pub timetable: Timetable,
}

const DEPOT: &[u8] = include_bytes!("../../../examples/depot.short");
const RING_OF_TEN: &[u8] = include_bytes!("../../../examples/ring_of_ten.order");

pub fn all() -> Vec<Case> {
    let mut random = Random::new(2024);
    let crowded = |random: &mut Random, floor: &Floor| strewn(random, floor, floor.n - 2);
    vec![
        planned("two_by_three", "2 by 3 positions", crowded(&mut random, &floors::grid(2, 3)).record()),
        planned("depot", "Depot: rack 6 to the corner", expanded(DEPOT)),
        planned(
            "four_by_four",
            "4 by 4 positions, two of them vacant",
            crowded(&mut random, &floors::grid(4, 4)).record(),
        ),
        planned("four_by_five", "4 by 5 positions", crowded(&mut random, &floors::grid(4, 5)).record()),
        planned(
            "eight_by_eight",
            "8 by 8 positions, two of them vacant",
            crowded(&mut random, &floors::grid(8, 8)).record(),
        ),
        planned("ring_of_ten", "Ring of ten: nine racks go one on", RING_OF_TEN.to_vec()),
        planned("handles", "A ring with handles", {
            let floor = handles(&mut random);
            crowded(&mut random, &floor).record()
        }),
        planned("half_vacant", "Half the positions vacant", strewn(&mut random, &pillars(), 14).record()),
        planned("no_steps", "Every rack is at its goal", at_goal(&floors::grid(3, 3)).record()),
        full_train(),
    ]
}

/// So many racks, with starts and goals at random.
fn strewn(random: &mut Random, floor: &Floor, racks: usize) -> write::Order {
    let (starts, goals) = (random.distinct(racks, floor.n), random.distinct(racks, floor.n));
    write::Order { n: floor.n, edges: floor.edges.clone(), starts, goals, ..Default::default() }
}

/// Racks on all positions but the last two, each at its goal.
fn at_goal(floor: &Floor) -> write::Order {
    let places: Vec<u8> = (0..floor.n as u8 - 2).collect();
    write::Order {
        n: floor.n,
        edges: floor.edges.clone(),
        starts: places.clone(),
        goals: places,
        ..Default::default()
    }
}

/// The next random floor of 18 positions that has few edges but those of its ring and handles.
fn handles(random: &mut Random) -> Floor {
    loop {
        let floor = floors::four_sided(random, 18);
        if (22..=24).contains(&floor.edges.len()) {
            return floor;
        }
    }
}

/// A floor of 5 by 6 positions with two pillars, numbered without them.
fn pillars() -> Floor {
    let number = |at: u8| match at {
        8 | 21 => None,
        _ => Some(usize::from(at) - usize::from(at > 8) - usize::from(at > 21)),
    };
    let edges = floors::grid(5, 6).edges.into_iter().filter_map(|(a, b)| Some((number(a)?, number(b)?)));
    Floor::new(28, edges.collect::<Vec<_>>())
}

fn expanded(short: &[u8]) -> Vec<u8> {
    let mut order = vec![0; 576];
    assert_eq!(proved::order_expand(short, &mut order) & 0xFF, 0, "the short order is accepted");
    let length = second::order::length(&order).expect("there are more than three bytes");
    order.truncate(length);
    order
}

/// The accepted answer's count.
fn count(answer: u64) -> usize {
    assert_eq!(answer & 0xFF, 0, "it is accepted");
    (answer >> 8) as usize
}

fn planned(name: &'static str, title: &'static str, order: Vec<u8>) -> Case {
    let n = usize::from(order[0] >> 1);
    let mut plan = vec![0; 18 * n * n * n + 3];
    let moves = count(proved::plan_make(&order, &mut plan));
    plan.truncate(Edition::Two.length(moves));
    timetabled(name, title, order, &plan, moves)
}

fn timetabled(name: &'static str, title: &'static str, order: Vec<u8>, plan: &[u8], moves: usize) -> Case {
    let mut timetable = vec![0; 3 * moves + 3];
    count(proved::timetable_make(&order, plan, &mut timetable));
    let length = second::timetable::length(&timetable).expect("it ends");
    timetable.truncate(length);
    let (fields, steps) = (order_fields(&order), timetable_fields(&timetable));
    Case { name, title, order_record: order, timetable_record: timetable, order: fields, timetable: steps }
}

/// Eight racks behind one another on the rim of 3 by 9 positions go six positions on, as one train each time.
fn full_train() -> Case {
    let top = 0..9;
    let bottom = (18..27).rev();
    let rim: Vec<u8> = top.chain([17]).chain(bottom).chain([9]).collect();
    let places = |from: usize| rim[from..from + 8].to_vec();
    let floor = floors::grid(3, 9);
    let order =
        write::Order { n: 27, edges: floor.edges, starts: places(0), goals: places(6), ..Default::default() };
    let moves: Vec<(u8, u8)> = (0..6)
        .flat_map(|on| (on..on + 8).rev().map(|at| (rim[at], rim[at + 1])).collect::<Vec<_>>())
        .collect();
    let plan = Plan::of_moves(&moves).record();
    timetabled("full_train", "A full train of eight", order.record(), &plan, moves.len())
}

/// The fields of an accepted order.
pub fn order_fields(record: &[u8]) -> Order {
    let order = second::order::read(record).expect("the order is accepted");
    let pairs = (0..order.floor.e).map(|index| positions(pair(&record[3..], index)));
    let places = |list: &[u8]| list.iter().map(|&place| usize::from(place)).collect();
    Order {
        positions: order.floor.n,
        edges: pairs.collect(),
        starts: places(order.starts()),
        goals: places(order.goals()),
    }
}

/// The steps of an accepted timetable.
pub fn timetable_fields(record: &[u8]) -> Timetable {
    let counts = second::timetable::read(record).expect("the timetable is accepted");
    let step = |number: u32| {
        let part = second::timetable::step(record, u64::from(number)).expect("there is this step");
        let moves = &record[part.offset..part.offset + part.length];
        (0..usize::from(moves[0])).map(|index| positions(pair(&moves[1..], index))).collect()
    };
    Timetable { steps: (1..=counts.steps).map(step).collect() }
}
