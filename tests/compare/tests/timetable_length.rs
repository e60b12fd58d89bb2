//! Where a timetable ends that other bytes follow: the proved function against the second implementation.

use compare::proved;
use compare::random::Random;
use compare::tally::Hex;
use compare::timetables::{self, Damage};

/// The length, after both said the same; 0 where the bytes end before the timetable does.
#[track_caller]
fn compare(bytes: &[u8]) -> usize {
    let second = second::timetable::length(bytes).unwrap_or(0);
    assert_eq!(proved::timetable_length(bytes), second as u64, "{}", Hex(bytes));
    second
}

#[test]
fn sound_timetables_with_bytes_behind_them() {
    let mut random = Random::new(0x5EED_A001);
    for _ in 0..50_000 {
        let mut bytes = match random.one_in(2) {
            true => timetables::random_packed(&mut random).record(),
            false => timetables::random_sound(&mut random).timetable.record(),
        };
        let end = bytes.len();
        assert_eq!(compare(&bytes), end);
        let behind = random.between(1, 40);
        bytes.extend(random.bytes(behind));
        assert_eq!(compare(&bytes), end);
        bytes.truncate(random.below(end));
        assert_eq!(compare(&bytes), 0);
    }
}

#[test]
fn damaged_timetables() {
    let mut random = Random::new(0x5EED_A002);
    let kinds = [Damage::StepCountChanged, Damage::CountByteChanged, Damage::BitFlipped, Damage::Noise];
    let (mut whole, mut none) = (0, 0);
    for _ in 0..200_000 {
        let timetable = timetables::random_packed(&mut random);
        let damage = random.pick(&kinds);
        let Some((bytes, _)) = timetables::damage_bytes(&mut random, &timetable, damage) else { continue };
        match compare(&bytes) {
            0 => none += 1,
            _ => whole += 1,
        }
    }
    println!("timetable_length: {whole} whole timetables, {none} cut short");
    assert!(whole >= 10_000 && none >= 10_000);
}

#[test]
fn every_cut_of_every_count_byte() {
    let mut random = Random::new(0x5EED_A003);
    for c in 0..=255u8 {
        // two steps, the first of c moves, the second of none, and a byte behind them
        let mut bytes = vec![0x00, 0x00, 0x08, c];
        bytes.extend(random.bytes((3 * usize::from(c)).div_ceil(2)));
        bytes.extend([0x00, 0xFF]);
        let end = bytes.len() - 1;
        for length in 0..=bytes.len() {
            assert_eq!(compare(&bytes[..length]), if length < end { 0 } else { end });
        }
    }
}

#[test]
fn the_most_steps() {
    let steps = (1 << 22) - 1;
    let mut bytes = vec![0; 3 + steps + 1];
    bytes[..3].copy_from_slice(&[0xFF, 0xFF, 0xFC]);
    assert_eq!(compare(&bytes), 3 + steps);
    assert_eq!(compare(&bytes[..3 + steps]), 3 + steps);
    assert_eq!(compare(&bytes[..2 + steps]), 0);
}
