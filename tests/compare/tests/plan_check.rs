//! The proved plan checker against the second one.

use compare::floors::{self, Floor};
use compare::packed::{self, refused};
use compare::plans;
use compare::proved;
use compare::random::Random;
use compare::readers::restored;
use compare::tally::{each_met, Tally};
use compare::write::{Edition, Order, Plan, EDITIONS};

const NUMBERS: [u8; 13] = [0, 10, 11, 12, 13, 14, 30, 31, 32, 33, 34, 35, 36];

fn compare(tally: &mut Tally, order: &[u8], plan: &[u8]) -> u64 {
    let expected = packed::count(second::plan::check(order, plan));
    tally.compare(proved::plan_check(order, plan), expected, &[order, plan]);
    expected
}

#[test]
fn sound_and_damaged_plans_on_floors_of_every_shape() {
    let mut random = Random::new(0x5EED_2001);
    let mut tally = Tally::new("plan_check");
    let kinds = plans::kinds();
    let mut met = vec![0; kinds.len()];
    for _ in 0..400_000 {
        let (kind, case) = plans::random_case(&mut random);
        let answer = compare(&mut tally, &case.order, &case.record);
        assert_eq!(case.answer.unwrap_or(answer), answer, "{kind:?}");
        if answer & 0xFF == 0 {
            restored(&case.order, &case.record);
        }
        met[kinds.iter().position(|&one| one == kind).expect("a kind")] += 1;
    }
    each_met(&kinds, &met);
    tally.finish(400_000, &NUMBERS);
}

/// Every floor of three positions, with no rack and with racks here and there, all at home.
fn orders_of_three_positions() -> Vec<Order> {
    let racks: [&[u8]; 5] = [&[], &[0], &[1], &[2, 0], &[0, 1, 2]];
    let at_home = |Floor { n, edges }: Floor| {
        racks.map(|places| {
            let (starts, goals) = (places.to_vec(), places.to_vec());
            Order { n, edges: edges.clone(), starts, goals, spare: 0, pad: 0 }
        })
    };
    floors::every_floor(3).into_iter().flat_map(at_home).collect()
}

#[test]
fn every_move_as_the_first_on_floors_of_three_positions() {
    let mut tally = Tally::new("plan_check, every first move on floors of three positions");
    for order in orders_of_three_positions() {
        for one in 0..1u16 << 12 {
            let plan = Plan::of_moves(&[((one >> 6) as u8, (one & 63) as u8)]);
            compare(&mut tally, &order.record(), &plan.record());
        }
    }
    tally.close(163_840);
}

#[test]
fn every_rack_with_the_first_move_on_floors_of_three_positions() {
    let mut tally = Tally::new("plan_check, every rack with the first move on floors of three positions");
    let positions = [0, 1, 2, 3, 63];
    for order in orders_of_three_positions() {
        for one in positions.iter().flat_map(|&left| positions.map(|entered| (left, entered))) {
            for rack in 1..=64 {
                let plan = Plan::new(Edition::Two, vec![(one, rack)]);
                compare(&mut tally, &order.record(), &plan.record());
            }
        }
    }
    tally.close(64_000);
}

#[test]
fn the_longest_plans() {
    let most = (1 << 22) - 1;
    let mut tally = Tally::new("plan_check, up to 4194303 moves");
    for k in [0, 1, 2, 3, 255, 256, 65_535, 65_536, 2_097_152, most - 1, most] {
        let sample = plans::to_and_fro(k);
        for edition in EDITIONS {
            let (order, plan) = (sample.order.record(), sample.plan(edition));
            let mut record = plan.record();
            assert_eq!(compare(&mut tally, &order, &record), (k as u64) << 8);
            if k > 0 {
                let last = record.len() - 1;
                record[last] ^= 1 << plan.pad_width(); // the last move enters where it left, or names rack 2
                let number = if edition == Edition::One { 32 } else { 36 };
                assert_eq!(compare(&mut tally, &order, &record), refused(number, k as u32));
                assert_eq!(compare(&mut tally, &order, &record[..last]), 30);
            }
        }
    }
    tally.close(62);
}

#[test]
fn long_plans_on_large_floors() {
    let mut random = Random::new(0x5EED_2002);
    let mut tally = Tally::new("plan_check, 200000 moves on 64 positions");
    for m in [1, 20, 61, 62, 63] {
        for floor in [floors::grid(8, 8), floors::bi_connected(&mut random, 64)] {
            let sample = plans::sound_on(&mut random, floor, m, 200_000);
            for edition in EDITIONS {
                compare(&mut tally, &sample.order.record(), &sample.plan(edition).record());
            }
        }
    }
    tally.close(20);
}
