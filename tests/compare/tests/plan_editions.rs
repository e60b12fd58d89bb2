//! The two editions of the plan told apart by their spare bits, their lengths and their pads: request (h). What the
//! plan checker has to answer is certain from how a record was made, and every other reader has to pass it up.

use compare::floors;
use compare::packed::{self, refused};
use compare::plans::{self, Sample};
use compare::proved;
use compare::random::Random;
use compare::readers::{all_refuse, restored};
use compare::tally::Tally;
use compare::write::{Edition, Plan, EDITIONS};

/// A sound plan with moves, not too many.
fn random_moving(random: &mut Random) -> Sample {
    loop {
        let sample = plans::random_sound(random);
        if (1..=100).contains(&sample.moves.len()) {
            return sample;
        }
    }
}

#[test]
fn every_pad_bit_of_each_pad_length() {
    let mut random = Random::new(0x5EED_2101);
    let mut tally = Tally::new("plans with a pad bit set");
    let mut met = [[0; 7]; 2]; // by edition and by the bits of the pad
    for _ in 0..4_000 {
        let sample = random_moving(&mut random);
        let order = sample.order.record();
        for edition in EDITIONS {
            let mut plan = sample.plan(edition);
            let width = plan.pad_width();
            for pad in 1..1u8 << width {
                plan.pad = pad;
                all_refuse(&mut tally, &order, &plan.record(), 31);
                met[edition as usize][width] += 1;
            }
        }
    }
    println!("  by the bits of the pad: edition one {:?}, edition two {:?}", met[0], met[1]);
    for (edition, width) in [(Edition::One, 4), (Edition::Two, 2), (Edition::Two, 4), (Edition::Two, 6)] {
        assert!(met[edition as usize][width] >= 1_000, "{edition:?}, {width} bits");
    }
    tally.finish(50_000, &[31]);
}

/// Where a plan of edition two has no pad, its last bits are a rack: with one of them changed it is 36 and not 31.
#[test]
fn the_last_bits_of_a_plan_without_a_pad() {
    let mut random = Random::new(0x5EED_2102);
    let mut tally = Tally::new("plans without a pad, with another rack at the end");
    while tally.cases() < 20_000 {
        let sample = random_moving(&mut random);
        let mut plan = sample.plan(Edition::Two);
        let k = plan.drives.len();
        if plan.pad_width() > 0 {
            continue;
        }
        let there = plan.drives[k - 1].1;
        for other in (1..=64).filter(|&rack| rack != there) {
            plan.drives[k - 1].1 = other;
            all_refuse(&mut tally, &sample.order.record(), &plan.record(), refused(36, k as u32));
        }
    }
    tally.finish(20_000, &[36]);
}

/// What the spare bits and the length decide: the number, or 0 where the record passes 30 and 31. "Spare bits 00
/// mean edition one; 10 or 11 meet 31, their length being judged by 30 as edition one." None where a record that was
/// made as one edition happens to be as long as the other: its moves are read where they were not written.
fn due(spare: u8, made: Edition, k: usize, length: usize) -> Option<u8> {
    let read = if spare == 0b01 { Edition::Two } else { Edition::One };
    if length != read.length(k) {
        return Some(30);
    }
    match spare {
        0b10 | 0b11 => Some(31),
        _ => (made == read || k == 0).then_some(0),
    }
}

#[test]
fn all_spare_bits_with_the_lengths_of_both_editions() {
    let mut random = Random::new(0x5EED_2103);
    let mut tally = Tally::new("plans with any spare bits");
    let mut met = [[[0; 2]; 2]; 4]; // by the spare bits, the edition made, and whether the length is that edition's
    for round in 0..10_000 {
        let sample = if round % 10 == 0 { plans::to_and_fro(0) } else { random_moving(&mut random) };
        let (order, k) = (sample.order.record(), sample.moves.len());
        for (spare, made) in (0..4u8).flat_map(|spare| EDITIONS.map(|made| (spare, made))) {
            let whole = Plan { spare, ..sample.plan(made) }.record();
            let shorter = whole.len() - random.between(1, 2);
            let longer = whole.len() + random.between(1, 2);
            for length in [shorter, whole.len(), longer] {
                let mut record = whole.clone();
                record.resize(length, 0);
                let answer = packed::count(second::plan::check(&order, &record));
                assert_eq!(proved::plan_check(&order, &record), answer);
                match due(spare, made, k, length) {
                    Some(0) => {
                        assert_eq!(answer, (k as u64) << 8);
                        restored(&order, &record);
                    }
                    Some(number) => all_refuse(&mut tally, &order, &record, number.into()),
                    None => {}
                }
                met[usize::from(spare)][made as usize][usize::from(length == made.length(k))] += 1;
            }
        }
    }
    for (spare, [one, two]) in met.iter().enumerate() {
        println!(
            "  spare bits {spare:02b}, [other lengths, its own]: edition one {one:?}, edition two {two:?}"
        );
        assert!([one, two].iter().all(|met| met.iter().all(|&met| met >= 1_000)));
    }
    tally.finish(100_000, &[30, 31]);
}

/// 63 racks are the most that can move: "rack number minus 1" has room for each.
#[test]
fn every_rack_of_a_floor_of_64_positions_is_named() {
    let mut random = Random::new(0x5EED_2104);
    let mut named = [0; 65];
    for m in [62, 63] {
        for _ in 0..20 {
            let sample = plans::sound_on(&mut random, floors::grid(8, 8), m, 2_000);
            let (order, plan) = (sample.order.record(), sample.plan(Edition::Two));
            assert_eq!(proved::plan_check(&order, &plan.record()), 2_000 << 8);
            plan.drives.iter().for_each(|&(_, rack)| named[usize::from(rack)] += 1);
        }
    }
    assert!((1..=63).all(|rack| named[rack] > 0), "{named:?}");
}
