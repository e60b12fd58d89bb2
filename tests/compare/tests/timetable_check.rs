//! The proved timetable checker against the second one.

use compare::floors::{self, Shape};
use compare::packed;
use compare::proved;
use compare::random::Random;
use compare::tally::{each_met, Tally};
use compare::timetables::{self, Damage, DAMAGES};
use compare::trains;
use compare::write::{Order, Step, Timetable};

const NUMBERS: [u8; 10] = [0, 10, 11, 12, 13, 14, 40, 41, 42, 43];

fn compare(tally: &mut Tally, order: &[u8], timetable: &[u8]) {
    let expected = packed::steps_and_moves(second::timetable::check(order, timetable));
    tally.compare(proved::timetable_check(order, timetable), expected, &[order, timetable]);
}

#[test]
fn sound_and_damaged_timetables_on_floors_of_every_shape() {
    let mut random = Random::new(0x5EED_3001);
    let mut tally = Tally::new("timetable_check");
    let mut met = [0; DAMAGES.len()];
    for _ in 0..300_000 {
        let (damage, case) = timetables::random_case(&mut random);
        compare(&mut tally, &case.order, &case.record);
        met[damage as usize] += 1;
    }
    each_met(&DAMAGES, &met);
    tally.finish(300_000, &NUMBERS);
}

#[test]
fn every_step_on_every_floor_of_up_to_four_positions() {
    let mut tally = Tally::new("timetable_check, every step");
    for n in 1..=4 {
        timetables::every_step(n, |case| compare(&mut tally, &case.order.record(), &case.timetable.record()));
    }
    tally.finish(10_000, &[0, 42]);
}

/// A legal step has "no chain of more than eight moves from any mover to its leader", and may have more moves than
/// eight.
#[test]
fn chains_of_eight_and_nine_and_every_length_up_to_20() {
    let mut random = Random::new(0x5EED_3004);
    let mut tally = Tally::new("timetable_check, one chain and two of 1 to 20 moves");
    let mut by_the_cap = 0;
    for _ in 0..20 {
        for chains in trains::every_one_and_two() {
            let (sample, answer) = trains::one_step(&mut random, &chains);
            let (order, timetable) = (sample.order.record(), sample.timetable.record());
            compare(&mut tally, &order, &timetable);
            assert_eq!(proved::timetable_check(&order, &timetable), answer, "{chains:?}");
            by_the_cap += u64::from(trains::only_too_long(&chains));
        }
    }
    println!("  42 by the cap {by_the_cap}");
    assert!(by_the_cap >= 5_000, "42 met by the cap {by_the_cap} times only");
    tally.finish(20_000, &[0, 42]);
}

/// "Stored timetables with longer trains now meet 42", with the number of the step, whatever the steps before it.
#[test]
fn a_train_of_nine_or_more_at_any_step() {
    let mut random = Random::new(0x5EED_3005);
    let mut tally = Tally::new("timetable_check, a train of nine or more");
    while tally.cases() < 6_000 {
        let sound = timetables::random_sound(&mut random);
        let damage = random.pick(&[Damage::TrainOfNine, Damage::TrainOfMore]);
        let Some(case) = timetables::damaged(&mut random, &sound, damage) else { continue };
        compare(&mut tally, &case.order, &case.record);
        assert_eq!(Some(proved::timetable_check(&case.order, &case.record)), case.answer, "{damage:?}");
    }
    tally.finish(6_000, &[42]);
}

#[test]
fn trains_of_every_length() {
    let mut random = Random::new(0x5EED_3002);
    let mut tally = Tally::new("timetable_check, trains on rings of 3 to 64");
    for n in 3..=64u8 {
        // positions 0 to n - 1 in a ring, a vacancy at `gap` and everywhere from `end` on
        let edges: Vec<(usize, usize)> =
            (0..n).map(|at| (usize::from(at), (usize::from(at) + 1) % usize::from(n))).collect();
        for end in [n, random.between(2, usize::from(n)) as u8] {
            for gap in [None, Some(random.below(usize::from(end)) as u8)] {
                let starts: Vec<u8> = (0..end).filter(|&at| Some(at) != gap).collect();
                let goals: Vec<u8> = starts.iter().map(|&at| (at + 1) % n).collect();
                let moves = starts.iter().copied().zip(goals.iter().copied()).collect();
                let floor = floors::Floor::new(usize::from(n), edges.clone());
                let order = Order { n: floor.n, edges: floor.edges, starts, goals, spare: 0, pad: 0 };
                let timetable = Timetable { steps: vec![Step { moves, pad: 0 }], spare: 0 };
                compare(&mut tally, &order.record(), &timetable.record());
            }
        }
    }
    tally.finish_each(248, 20, &[0, 42]);
}

#[test]
fn many_steps() {
    let most = (1 << 22) - 1;
    let mut tally = Tally::new("timetable_check, up to 4194303 steps");
    let order = Order { n: 2, edges: vec![(0, 1)], starts: vec![0], goals: vec![1], spare: 0, pad: 0 };
    for steps in [0usize, 1, 255, 256, 65_535, 65_536, most - 1, most] {
        // rack 1 goes to and fro, then waits
        let step = |index: usize| match index {
            0..100 => Step { moves: vec![[(0, 1), (1, 0)][index % 2]], pad: 0 },
            _ => Step::default(),
        };
        let timetable = Timetable { steps: (0..steps).map(step).collect(), spare: 0 }.record();
        compare(&mut tally, &order.record(), &timetable);
        compare(&mut tally, &order.record(), &timetable[..timetable.len() - 1]);
    }
    tally.close(16);
}

#[test]
fn long_timetables_on_large_floors() {
    let mut random = Random::new(0x5EED_3003);
    let mut tally = Tally::new("timetable_check, 20000 steps");
    for m in [0, 1, 20, 62, 63, 64] {
        for shape in [Shape::Grid, Shape::Ring, Shape::BiConnected, Shape::Path] {
            let floor = floors::floor_of_shape(&mut random, shape);
            let m = m.min(floor.n);
            let sample = timetables::sound_on(&mut random, floor, m, 20_000);
            compare(&mut tally, &sample.order.record(), &sample.timetable.record());
        }
    }
    tally.close(24);
}
