//! The search beside the proved method: the planner's plan is never worse, and depends on the order alone.

use compare::floors::{self, Floor};
use compare::orders;
use compare::packed;
use compare::proved;
use compare::random::Random;
use compare::write::Edition;
use std::collections::hash_map::DefaultHasher;
use std::hash::{Hash, Hasher};

/// Room for a plan on n positions.
fn enough(n: usize) -> usize {
    18 * n.pow(3) + 3
}

fn positions(order: &[u8]) -> usize {
    usize::from(order[0] / 2)
}

/// The planner's plan, made in a buffer that held this byte everywhere.
fn planned(order: &[u8], held: u8) -> Vec<u8> {
    let mut buffer = vec![held; enough(positions(order))];
    let k = packed::to_count(proved::plan_make(order, &mut buffer)).expect("the order can be planned");
    buffer.truncate(Edition::Two.length(k as usize));
    buffer
}

/// The plan of the proved method alone.
fn by_method(order: &[u8]) -> Vec<u8> {
    let mut buffer = vec![0; enough(positions(order))];
    assert_eq!(proved::inspect_method(order, &mut buffer, 0), 0, "the order can be planned");
    let k = proved::inspect_method(order, &mut buffer, 1);
    buffer.truncate(Edition::Two.length(k as usize));
    buffer
}

/// The steps of a plan's timetable, and its moves, by the second implementation.
fn length(order: &[u8], plan: &[u8]) -> (u32, u32) {
    let moves = second::plan::check(order, plan).expect("the plan is accepted");
    let mut timetable = vec![0; 3 * moves as usize + 3];
    (second::making::make(order, plan, &mut timetable).expect("the timetable is made"), moves)
}

/// An order of up to so many positions that can be planned, on a floor of any such shape but a ring, where nothing is searched.
fn random_order(random: &mut Random, most: usize) -> Vec<u8> {
    let n = random.between(7, most);
    let floor = match random.below(3) {
        0 => no_ring(random, n),
        1 => floors::of_handles(random, n, 4),
        _ => floors::of_handles(random, n, 16),
    };
    let m = if random.one_in(2) { n - 2 } else { random.between(1, n - 2) };
    orders::order_on(random, &floor, m).record()
}

fn no_ring(random: &mut Random, n: usize) -> Floor {
    loop {
        let floor = floors::four_sided(random, n);
        if floor.edges.len() > n {
            return floor;
        }
    }
}

#[test]
fn never_worse_than_the_method() {
    let mut random = Random::new(0x5EED_C001);
    let (mut shorter, mut as_long) = (0, 0);
    for round in 0..1_500 {
        let order = random_order(&mut random, if round % 50 == 0 { 64 } else { 16 });
        let (made, method) = (planned(&order, 0), by_method(&order));
        let (better, proved) = (length(&order, &made), length(&order, &method));
        assert!(better <= proved, "worse than the method");
        assert!(better < proved || made == method, "another plan that is no better");
        if better < proved {
            shorter += 1;
        } else {
            as_long += 1;
        }
    }
    println!("the search has the better plan {shorter} times, the method's stays {as_long} times");
    assert!(shorter > 1_000 && as_long > 20);
}

/// Means over random orders with two vacancies: what the search is there for.
#[test]
fn shorter_on_grids() {
    let mut random = Random::new(0x5EED_C002);
    for (rows, columns) in [(3, 4), (4, 4), (4, 5)] {
        let floor = floors::grid(rows, columns);
        let (mut made, mut method) = ((0, 0), (0, 0));
        for _ in 0..40 {
            let order = orders::order_on(&mut random, &floor, floor.n - 2).record();
            let (a, b) = (length(&order, &planned(&order, 0)), length(&order, &by_method(&order)));
            made = (made.0 + a.0, made.1 + a.1);
            method = (method.0 + b.0, method.1 + b.1);
        }
        println!("{rows} by {columns}: steps {} of {}, moves {} of {}", made.0, method.0, made.1, method.1);
        assert!(2 * made.0 < method.0 && 2 * made.1 < method.1, "half as long, and shorter");
    }
}

#[test]
fn the_same_plan_in_other_buffers_and_from_two_threads_at_once() {
    let mut random = Random::new(0x5EED_C003);
    let orders: Vec<Vec<u8>> = (0..200).map(|_| random_order(&mut random, 20)).collect();
    let alone: Vec<Vec<u8>> = orders.iter().map(|order| planned(order, 0)).collect();
    let work = |held: u8| -> Vec<Vec<u8>> { orders.iter().map(|order| planned(order, held)).collect() };
    let (first, second) = std::thread::scope(|scope| {
        let (first, second) = (scope.spawn(|| work(0xFF)), scope.spawn(|| work(0x5A)));
        (first.join().expect("it ends"), second.join().expect("it ends"))
    });
    assert!(first == alone && second == alone);
}

/// The hash is printed, to be compared between runs and machines.
#[test]
fn the_plans_of_2_000_orders_are_the_same_twice() {
    let hash = || {
        let mut random = Random::new(0x5EED_C004);
        let mut hasher = DefaultHasher::new();
        for _ in 0..2_000 {
            planned(&random_order(&mut random, 10), 0).hash(&mut hasher);
        }
        hasher.finish()
    };
    let first = hash();
    println!("hash of the plans of 2,000 orders: {first:016x}");
    assert_eq!(hash(), first);
}
