//! The proved judgement of a floor against the second one.

use compare::floors::{self, SHAPES};
use compare::orders;
use compare::packed;
use compare::proved;
use compare::random::Random;
use compare::tally::Tally;

fn compare(tally: &mut Tally, order: &[u8]) {
    let expected = packed::nothing(second::floor::check(order));
    tally.compare(proved::floor_check(order), expected, &[order]);
}

#[test]
fn every_floor_of_up_to_six_positions() {
    let mut random = Random::new(0x5EED_6001);
    let mut tally = Tally::new("floor_check, every floor of up to six positions");
    for n in 1..=6 {
        for floor in floors::every_floor(n) {
            for m in 0..=n {
                let order = orders::order_on(&mut random, &floor, m);
                compare(&mut tally, &order.record());
            }
        }
    }
    tally.close(200_000);
}

#[test]
fn random_floors_of_every_shape() {
    let mut random = Random::new(0x5EED_6002);
    let mut tally = Tally::new("floor_check");
    for _ in 0..20_000 {
        for shape in SHAPES {
            let floor = floors::floor_of_shape(&mut random, shape);
            let m = random.between(0, floor.n.saturating_sub(1));
            let order = orders::order_on(&mut random, &floor, m);
            compare(&mut tally, &order.record());
        }
    }
    tally.finish(200_000, &[0, 20, 21, 24, 26]);
}

#[test]
fn floors_with_an_edge_less() {
    let mut random = Random::new(0x5EED_6003);
    let mut tally = Tally::new("floor_check, an edge less");
    for _ in 0..20_000 {
        let n = random.between(4, 64);
        let mut floor = match random.one_in(2) {
            true => floors::bi_connected(&mut random, n),
            false => floors::four_sided(&mut random, n),
        };
        // edges are taken away until the floor falls apart
        while !floor.edges.is_empty() {
            let order = orders::order_on(&mut random, &floor, 1);
            compare(&mut tally, &order.record());
            floor.edges.remove(random.below(floor.edges.len()));
            if random.one_in(20) {
                break;
            }
        }
    }
    tally.close(100_000);
}

#[test]
fn damaged_orders() {
    let mut random = Random::new(0x5EED_6004);
    let mut tally = Tally::new("floor_check, damaged orders");
    for _ in 0..100_000 {
        let order = orders::random_order(&mut random);
        let damage = orders::random_damage(&mut random, &order);
        let record = orders::damaged(&mut random, &order, damage);
        let number = second::floor::check(&record).map_or_else(|refusal| refusal.number, |()| 0);
        if (10..20).contains(&number) {
            compare(&mut tally, &record);
        }
    }
    tally.finish(80_000, &[10, 11, 12, 13, 14]);
}
