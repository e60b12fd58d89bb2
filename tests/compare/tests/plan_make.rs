//! The proved planner's answers and plans, judged by the second implementation.

use compare::floors::{self, Floor, Shape};
use compare::orders;
use compare::packed;
use compare::proved;
use compare::random::Random;
use compare::tally::{Hex, Tally};
use compare::write::Edition;

const NUMBERS: [u8; 11] = [0, 10, 11, 12, 13, 14, 20, 21, 23, 24, 26];

/// Plans into the buffer and judges what came of it. The moves, or 0 if it was refused.
fn judge(tally: &mut Tally, order: &[u8], buffer: &mut [u8]) -> usize {
    let before = buffer.to_vec();
    let answer = packed::to_count(proved::plan_make(order, buffer));
    if let Some(fault) = second::planning::fault(order, &before, buffer, answer) {
        panic!("{fault}, on {}", Hex(order));
    }
    tally.count(packed::count(answer));
    answer.unwrap_or(0) as usize
}

/// The buffer length that is enough for n positions.
fn enough(n: usize) -> usize {
    18 * n.pow(3) + 3
}

/// A size that is often small, since a plan for a large floor takes long.
fn random_size(random: &mut Random) -> usize {
    match random.below(40) {
        0 => random.between(20, 64),
        1..=5 => random.between(9, 20),
        _ => random.between(4, 8),
    }
}

/// The vacancies of an order that may be planned: often two.
fn random_rack_count(random: &mut Random, n: usize) -> usize {
    match random.one_in(2) {
        true => n - 2,
        false => random.between(0, n - 2),
    }
}

#[test]
fn plans_for_random_orders() {
    let mut random = Random::new(0x5EED_7001);
    let mut tally = Tally::new("plan_make, random orders");
    for _ in 0..20_000 {
        let n = random_size(&mut random);
        let floor = floors::four_sided(&mut random, n);
        let m = random_rack_count(&mut random, n);
        let order = orders::order_on(&mut random, &floor, m).record();
        let length = enough(n) + random.below(3);
        let mut buffer = random.bytes(length);
        judge(&mut tally, &order, &mut buffer);
    }
    tally.close(20_000);
}

#[test]
fn refusals() {
    let mut random = Random::new(0x5EED_7002);
    let mut tally = Tally::new("plan_make, refusals");
    let mut buffer = random.bytes(enough(8));
    for _ in 0..100_000 {
        let shape = if random.one_in(8) { Shape::Ring } else { random.pick(&floors::SHAPES) };
        let floor = floors::floor_of_shape(&mut random, shape);
        let m = random.between(0, floor.n);
        let order = orders::order_on(&mut random, &floor, m);
        let record = match random.one_in(4) {
            true => {
                let damage = orders::random_damage(&mut random, &order);
                orders::damaged(&mut random, &order, damage)
            }
            false => order.record(),
        };
        // around the limit of a small floor
        let limit = enough(order.n.clamp(1, 8));
        let length = if random.one_in(2) { limit.min(buffer.len()) } else { random.below(limit) };
        judge(&mut tally, &record, &mut buffer[..length]);
    }
    tally.finish(100_000, &NUMBERS);
}

/// Plans the order in buffers of different lengths that held zeros, ones, anything, and the plan itself with
/// every bit changed: the answer and the record have to be the same.
fn judge_every_buffer(tally: &mut Tally, random: &mut Random, order: &[u8], length: usize) {
    let mut first = vec![0; length];
    let moves = judge(tally, order, &mut first);
    let plan = &first[..Edition::Two.length(moves)];
    let changed = first.iter().map(|byte| !byte).collect();
    let more = random.below(1_000);
    for mut buffer in [changed, vec![0xFF; length + 1], random.bytes(length + 2), random.bytes(length + more)]
    {
        let k = judge(tally, order, &mut buffer);
        assert!(k == moves && &buffer[..plan.len()] == plan, "another plan, on {}", Hex(order));
    }
}

#[test]
fn the_same_plan_whatever_the_buffer_held() {
    let mut random = Random::new(0x5EED_7003);
    let mut tally = Tally::new("plan_make, buffers");
    for _ in 0..2_000 {
        let n = random_size(&mut random);
        let floor = floors::four_sided(&mut random, n);
        if floor.edges.len() == n {
            continue; // a ring: its plans are in rings.rs
        }
        let m = random_rack_count(&mut random, n);
        let order = orders::order_on(&mut random, &floor, m).record();
        judge_every_buffer(&mut tally, &mut random, &order, enough(n));
    }
    tally.close(5_000);
}

#[test]
fn every_order_of_two_racks_on_every_floor_of_four_positions() {
    let mut tally = Tally::new("plan_make, small floors");
    let places: Vec<[u8; 2]> =
        (0..4).flat_map(|a| (0..4).filter(move |&b| a != b).map(move |b| [a, b])).collect();
    for Floor { n, edges } in floors::every_floor(4) {
        for starts in &places {
            for goals in &places {
                let order = compare::write::Order {
                    n,
                    edges: edges.clone(),
                    starts: starts.to_vec(),
                    goals: goals.to_vec(),
                    spare: 0,
                    pad: 0,
                };
                judge(&mut tally, &order.record(), &mut [0x55; 1155]);
            }
        }
    }
    tally.close(9_216);
}

#[test]
fn grids_with_two_vacancies() {
    let mut random = Random::new(0x5EED_7004);
    let mut tally = Tally::new("plan_make, grids");
    for rows in 2..=8 {
        for columns in rows.max(3)..=64 / rows {
            let floor = floors::grid(rows, columns);
            let order = orders::order_on(&mut random, &floor, floor.n - 2).record();
            let mut buffer = vec![0; enough(floor.n)];
            let moves = judge(&mut tally, &order, &mut buffer);
            if rows == 8 {
                println!("  {rows} by {columns}: {moves} moves");
            }
        }
    }
    tally.close(79);
}
