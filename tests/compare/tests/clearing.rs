//! Positions cleared by the nearest vacancy, with some held, judged by the second implementation.

use compare::floors::{self, Floor, SHAPES};
use compare::orders;
use compare::proved;
use compare::random::Random;
use compare::tally::Hex;
use compare::write::Order;

/// The bytes that the racks take.
const RACKS: usize = 64;

/// How often a position was cleared in so many moves, and how often there was no way.
struct Seen {
    no_way: u64,
    cleared: [u64; 64],
}

impl Seen {
    fn new() -> Seen {
        Seen { no_way: 0, cleared: [0; 64] }
    }

    /// Clears the position, judges what came of it and counts it.
    #[track_caller]
    fn judge(&mut self, order: &[u8], held: u64, position: u64, buffer: &mut [u8]) {
        let before = buffer.to_vec();
        let answer = proved::inspect_clear(order, held, position, buffer);
        if let Some(fault) = second::clearing::fault(order, held, position, &before, buffer, answer) {
            panic!("{fault}: position {position}, held {held:#x}, on {}", Hex(order));
        }
        match answer {
            0 => self.no_way += 1,
            _ => self.cleared[answer as usize - 1] += 1,
        }
    }

    #[track_caller]
    fn finish(&self, name: &str, cases: u64, no_way: u64) {
        let cleared: u64 = self.cleared.iter().sum();
        println!("clearing, {name}: {cleared} cleared, {} without a way; by moves:", self.no_way);
        println!("  {:?}", &self.cleared);
        assert!(cleared + self.no_way >= cases, "{name}: too few cases");
        assert!(self.no_way >= no_way && cleared >= no_way, "{name}: one of the answers is too rare");
    }
}

/// Held positions: none, a few, many, all but a few, those that are vacant or hold a rack, or any bits at all.
fn random_held(random: &mut Random, order: &Order) -> u64 {
    let occupied = order.starts.iter().fold(0, |set, &start| set | 1u64 << start);
    let few = random.number() & random.number() & random.number();
    match random.below(8) {
        0 => 0,
        1 => few & few.rotate_left(7),
        2 | 3 => few,
        4 => random.number() & random.number(),
        5 => !few,
        6 => [!occupied, occupied][random.below(2)] & random.number(),
        _ => random.number(),
    }
}

/// A position, now and then one that the floor does not have.
fn random_position(random: &mut Random, n: usize) -> u64 {
    match random.below(50) {
        0 => random.between(n, 64) as u64,
        1 => random.number(),
        _ => random.below(n) as u64,
    }
}

#[test]
fn random_floors_arrangements_and_held_positions() {
    let mut random = Random::new(0x5EED_9001);
    let mut seen = Seen::new();
    for _ in 0..25_000 {
        for shape in SHAPES {
            let floor = floors::floor_of_shape(&mut random, shape);
            let m = match random.one_in(2) {
                true => floor.n - random.between(0, usize::min(3, floor.n)),
                false => random.between(0, floor.n),
            };
            let order = orders::order_on(&mut random, &floor, m);
            let held = random_held(&mut random, &order);
            let position = random_position(&mut random, floor.n);
            let mut buffer = [0xA5; RACKS + 3];
            seen.judge(&order.record(), held, position, &mut buffer);
        }
    }
    seen.finish("random floors", 300_000, 10_000);
    let long: u64 = seen.cleared[8..].iter().sum();
    assert!(long >= 1_000, "{long} clearings of eight moves or more only");
}

#[test]
fn every_floor_of_up_to_four_positions() {
    let mut seen = Seen::new();
    let mut cases = 0;
    for n in 1..=4 {
        for Floor { n, edges } in floors::every_floor(n) {
            for occupied in 0..1u8 << n {
                let starts: Vec<u8> = (0..n as u8).filter(|at| occupied >> at & 1 == 1).collect();
                let goals = starts.clone();
                let order = Order { n, edges: edges.clone(), starts, goals, spare: 0, pad: 0 }.record();
                for held in 0..1u64 << n {
                    for position in 0..=n as u64 {
                        seen.judge(&order, held, position, &mut [0; RACKS]);
                        cases += 1;
                    }
                }
            }
        }
    }
    seen.finish("every floor of up to four positions", cases, 10_000);
}

#[test]
fn long_ways() {
    let mut random = Random::new(0x5EED_9002);
    let mut seen = Seen::new();
    for n in 2..=64 {
        let path = Floor::new(n, (1..n).map(|at| (at - 1, at)));
        let order = orders::order_on(&mut random, &path, n - 1);
        let vacant = (0..n as u8).find(|at| !order.starts.contains(at)).expect("a vacancy");
        for position in 0..n as u64 {
            seen.judge(&order.record(), 0, position, &mut [0; RACKS]);
            seen.judge(&order.record(), 1 << vacant, position, &mut [0; RACKS]);
        }
    }
    seen.finish("paths with one vacancy", 4_000, 2_000);
}

#[test]
fn nothing_is_written_for_a_refused_order_or_into_a_short_buffer() {
    let mut random = Random::new(0x5EED_9003);
    let mut seen = Seen::new();
    for _ in 0..20_000 {
        let order = orders::random_order(&mut random);
        let damage = orders::random_damage(&mut random, &order);
        let record = orders::damaged(&mut random, &order, damage);
        seen.judge(&record, 0, 0, &mut [0xA5; RACKS]);
    }
    assert!(seen.no_way >= 10_000, "{} refused orders only", seen.no_way);
    let grid = orders::order_on(&mut random, &floors::grid(3, 3), 0).record();
    for length in 0..RACKS {
        seen.judge(&grid, 0, 0, &mut vec![0xA5; length]);
    }
    assert_eq!(proved::inspect_clear(&grid, 0, 0, &mut [0; RACKS]), 1, "vacant, and no move is needed");
}
