//! The proved breakdown against the rules of document 01, judged by the second implementation: it is there
//! exactly where the floor is bi-connected and no ring. And the part that the step reader gives back, against
//! the second one's.

use compare::breakdowns::{longest_handle, proved_breakdown, ROWS};
use compare::floors::{self, SHAPES};
use compare::orders;
use compare::proved;
use compare::random::Random;
use compare::tally::Hex;
use compare::timetables;
use second::breakdown::{broken_rule, Breakdown};

/// Floors with a breakdown, and without one.
#[derive(Default)]
struct Seen {
    broken_down: u64,
    others: u64,
}

impl Seen {
    /// Judges the breakdown of the order's floor.
    #[track_caller]
    fn judge(&mut self, order: &[u8]) -> Option<Breakdown> {
        let floor = second::order::read(order).expect("a well-formed order").floor;
        let found = proved_breakdown(order);
        let wanted = second::floor::is_biconnected(&floor) && !second::floor::is_ring(&floor);
        assert_eq!(found.is_some(), wanted, "a breakdown where there is none, or none, on {}", Hex(order));
        match &found {
            Some(breakdown) => {
                self.broken_down += 1;
                assert_eq!(broken_rule(&floor, breakdown), None, "on {}", Hex(order));
            }
            None => self.others += 1,
        }
        found
    }

    #[track_caller]
    fn finish(&self, name: &str, least: u64) {
        println!("breakdown, {name}: {} with one, {} without", self.broken_down, self.others);
        assert!(self.broken_down >= least && self.others >= least, "{name}: too few floors");
    }
}

#[test]
fn every_floor_of_up_to_six_positions() {
    let mut random = Random::new(0x5EED_8001);
    let mut seen = Seen::default();
    for n in 1..=6 {
        for floor in floors::every_floor(n) {
            let m = random.between(0, n);
            seen.judge(&orders::order_on(&mut random, &floor, m).record());
        }
    }
    assert_eq!(seen.broken_down + seen.others, 1 + 2 + 8 + 64 + 1024 + 32768);
    seen.finish("every floor of up to six positions", 10_000);
}

#[test]
fn random_floors_of_every_shape() {
    let mut random = Random::new(0x5EED_8002);
    let mut seen = Seen::default();
    for _ in 0..1_000 {
        for shape in SHAPES {
            let floor = floors::floor_of_shape(&mut random, shape);
            let m = random.between(0, floor.n);
            seen.judge(&orders::order_on(&mut random, &floor, m).record());
        }
    }
    seen.finish("random floors", 1_000);
}

#[test]
fn grids_have_a_short_ring_and_short_handles() {
    let mut random = Random::new(0x5EED_8003);
    let mut seen = Seen::default();
    for rows in 2..=32 {
        for columns in 2..=64 / rows {
            let floor = floors::grid(rows, columns);
            let found = seen.judge(&orders::order_on(&mut random, &floor, 0).record());
            let Some(breakdown) = found else {
                assert_eq!((rows, columns), (2, 2), "the ring of four is the one grid without a breakdown");
                continue;
            };
            assert_eq!(breakdown.ring.len(), 4, "{rows} by {columns}");
            assert!(longest_handle(&breakdown) <= 2, "{rows} by {columns}");
        }
    }
    seen.finish("grids", 1);
}

#[test]
fn nothing_is_written_for_a_refused_order_or_into_a_short_buffer() {
    let mut random = Random::new(0x5EED_8004);
    let mut refused = 0;
    for _ in 0..20_000 {
        let order = orders::random_order(&mut random);
        let damage = orders::random_damage(&mut random, &order);
        let record = orders::damaged(&mut random, &order, damage);
        if second::order::read(&record).is_err() {
            assert_eq!(proved_breakdown(&record), None);
            refused += 1;
        }
    }
    assert!(refused >= 10_000, "{refused} refused orders only");
    let grid = orders::order_on(&mut random, &floors::grid(3, 3), 0).record();
    for length in 0..ROWS {
        let mut buffer = vec![0xA5; length];
        assert_eq!(proved::inspect_breakdown(&grid, &mut buffer), 0);
        assert!(buffer.iter().all(|&byte| byte == 0xA5));
    }
    assert_ne!(proved::inspect_breakdown(&grid, &mut [0; ROWS]), 0);
}

/// The part of the timetable that the step reader gives back, read byte by byte to its end.
fn proved_part(timetable: &[u8], number: u64) -> Vec<u8> {
    (0..).map_while(|index| u8::try_from(proved::inspect_step(timetable, number, index)).ok()).collect()
}

/// The second step reader's; empty where the step is refused.
fn second_part(timetable: &[u8], number: u64) -> &[u8] {
    second::timetable::step(timetable, number)
        .map_or(&[], |part| &timetable[part.offset..part.offset + part.length])
}

#[test]
fn the_part_that_the_step_reader_gives_back() {
    let mut random = Random::new(0x5EED_8005);
    let (mut given, mut refused) = (0, 0);
    for _ in 0..1_000 {
        let mut record = timetables::random_packed(&mut random).record();
        if random.one_in(4) {
            let at = random.below(record.len());
            record[at] ^= 1 << random.below(8);
        }
        let steps = u64::from(record[2] >> 2);
        for number in (0..=steps + 1).chain([u64::MAX]) {
            let wanted = second_part(&record, number);
            assert_eq!(proved_part(&record, number), wanted, "step {number} of {}", Hex(&record));
            assert_eq!(proved::inspect_step(&record, number, u64::MAX), 256);
            match wanted.is_empty() {
                true => refused += 1,
                false => given += 1,
            }
        }
    }
    println!("step reader's parts: {given} given back, {refused} refused");
    assert!(given >= 1_000 && refused >= 1_000, "too few parts");
}
