//! The proved step reader against the second one.

use compare::packed;
use compare::proved;
use compare::random::Random;
use compare::tally::Tally;
use compare::timetables::{self, Damage};
use compare::write::Timetable;

const NUMBERS: [u8; 4] = [0, 40, 41, 45];

fn compare(tally: &mut Tally, timetable: &[u8], number: u64) {
    let expected = packed::part(second::timetable::step(timetable, number));
    tally.compare(proved::timetable_step(timetable, number), expected, &[timetable, &number.to_be_bytes()]);
}

/// A timetable, sound or damaged, whose steps are of any moves.
fn random_record(random: &mut Random, timetable: &mut Timetable) -> Vec<u8> {
    match random.below(12) {
        0 => timetable.spare = random.between(1, 3) as u8,
        1 => drop(timetables::set_pad(random, timetable)),
        kind @ 2..=6 => {
            let damage = [
                Damage::Cut,
                Damage::Extended,
                Damage::StepCountChanged,
                Damage::BitFlipped,
                Damage::CountByteChanged,
            ][kind - 2];
            if let Some((bytes, _)) = timetables::damage_bytes(random, timetable, damage) {
                return bytes;
            }
        }
        _ => {}
    }
    timetable.record()
}

/// A step number: one of the timetable's, or one just outside, or any.
fn random_number(random: &mut Random, steps: u64) -> u64 {
    match random.below(10) {
        0 => 0,
        1 => steps,
        2 => steps + 1,
        3 => random.number(),
        4 => (1 << 32) + random.below(steps as usize + 1) as u64,
        5 => (1 << 22) + random.below(steps as usize + 1) as u64,
        _ => random.between(1, steps.max(1) as usize) as u64,
    }
}

#[test]
fn steps_of_sound_and_damaged_timetables() {
    let mut random = Random::new(0x5EED_4001);
    let mut tally = Tally::new("timetable_step");
    for _ in 0..200_000 {
        let mut timetable = match random.one_in(2) {
            true => timetables::random_packed(&mut random),
            false => timetables::random_sound(&mut random).timetable,
        };
        let steps = timetable.steps.len() as u64;
        let record = random_record(&mut random, &mut timetable);
        let number = random_number(&mut random, steps);
        compare(&mut tally, &record, number);
    }
    tally.finish(200_000, &NUMBERS);
}

#[test]
fn the_parts_follow_each_other() {
    let mut random = Random::new(0x5EED_4002);
    let mut tally = Tally::new("timetable_step, parts");
    for _ in 0..2_000 {
        let timetable = timetables::random_packed(&mut random);
        let record = timetable.record();
        let mut end = 3;
        for number in 1..=timetable.steps.len() as u64 {
            compare(&mut tally, &record, number);
            let answer = proved::timetable_step(&record, number);
            assert_eq!(answer >> 24, end as u64);
            end += (answer >> 8 & 0xFFFF) as usize;
        }
        assert_eq!(end, record.len());
    }
    tally.finish(10_000, &[0]);
}

#[test]
fn the_last_of_the_most_steps() {
    let mut record = vec![0; 3 + (1 << 22) - 1];
    record[..3].copy_from_slice(&[0xFF, 0xFF, 0xFC]);
    let mut tally = Tally::new("timetable_step, 4194303 steps");
    for number in [0, 1, 2, (1 << 22) - 2, (1 << 22) - 1, 1 << 22, u64::MAX] {
        compare(&mut tally, &record, number);
    }
    tally.close(7);
}
