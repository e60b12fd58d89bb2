//! Short orders written out: the proved function against the second implementation, every byte of the buffer.

use compare::packed;
use compare::proved;
use compare::random::Random;
use compare::short_orders::{damaged, short_order, Damage, DAMAGES, MODELS};
use compare::tally::{Hex, Tally};

const NUMBERS: [u8; 5] = [0, 14, 50, 51, 52];

/// Writes the short order out into a buffer of this length that held anything; the answer and every byte
/// have to be the second implementation's. The record, or none where it was refused.
#[track_caller]
fn compare(tally: &mut Tally, random: &mut Random, short: &[u8], lent: usize) -> Option<Vec<u8>> {
    let mut buffer = random.bytes(lent);
    let mut expected = buffer.clone();
    let second = second::models::expand(short, lent);
    if let Ok(record) = &second {
        expected[..record.len()].copy_from_slice(record);
    }
    let answer = second.as_ref().map(|record| record.len() as u32).map_err(|&refusal| refusal);
    tally.compare(proved::order_expand(short, &mut buffer), packed::count(answer), &[short]);
    assert!(buffer == expected, "another buffer, on {}", Hex(short));
    second.ok()
}

/// The length of the full record of m racks.
fn full_length(rows: usize, columns: usize, m: usize) -> usize {
    3 + (12 * (rows * (columns - 1) + columns * (rows - 1) + m)).div_ceil(8)
}

#[test]
fn sound_short_orders_of_every_model_and_every_number_of_racks() {
    let mut random = Random::new(0x5EED_A001);
    let mut tally = Tally::new("order_expand, sound");
    for (model, rows, columns) in MODELS {
        let n = rows * columns;
        for m in 0..=n {
            for _ in 0..500 {
                let short = short_order(&mut random, model, n, m).record();
                let length = full_length(rows, columns, m);
                let lent = length + random.below(3);
                let record = compare(&mut tally, &mut random, &short, lent).expect("a sound short order");
                assert_eq!(record.len(), length);
                // "a full order on such a floor never meets 21 or 22"
                let floor = proved::floor_check(&record);
                assert_eq!(floor, if m + 2 > n { 20 } else { 0 }, "on {}", Hex(&short));
            }
        }
    }
    tally.close(60_000);
}

#[test]
fn every_short_order_that_may_be_planned_is() {
    let mut random = Random::new(0x5EED_A002);
    let mut tally = Tally::new("order_expand, then planned");
    for (model, rows, columns) in MODELS {
        let n = rows * columns;
        for m in 0..=n - 2 {
            for _ in 0..if n > 20 { 2 } else { 60 } {
                let short = short_order(&mut random, model, n, m).record();
                let lent = full_length(rows, columns, m);
                let order = compare(&mut tally, &mut random, &short, lent).expect("a sound short order");
                let before = random.bytes(18 * n.pow(3) + 3);
                let mut plan = before.clone();
                let answer = packed::to_count(proved::plan_make(&order, &mut plan));
                let fault = second::planning::fault(&order, &before, &plan, answer);
                assert_eq!(fault, None, "on {}", Hex(&short));
            }
        }
    }
    tally.close(3_000);
}

/// A cut and bytes behind may leave just the length that is due.
fn may_cancel(one: Damage, other: Damage) -> bool {
    one != other
        && [Damage::Cut, Damage::Extended].contains(&one)
        && [Damage::Cut, Damage::Extended].contains(&other)
}

/// Short orders with one damage, or with both; the first in the order of the tests decides.
fn compare_damaged(tally: &mut Tally, random: &mut Random, one: Damage, other: Damage) {
    let mut left = 1_500;
    while left > 0 {
        let (model, rows, columns) = random.pick(&MODELS);
        let n = rows * columns;
        let m = random.between(0, n);
        if !one.fits(n, m) || !other.fits(n, m) {
            continue;
        }
        left -= 1;
        let sound = short_order(random, model, n, m);
        let both = if one == other { vec![one] } else { vec![one, other] };
        let (short, lent) = damaged(random, &sound, n, full_length(rows, columns, m), &both);
        compare(tally, random, &short, lent);
        let due = if one.turn() < other.turn() { one } else { other };
        let number = second::models::expand(&short, lent).map_err(|refusal| refusal.number);
        assert_eq!(number, Err(due.number()), "{one:?}, {other:?}");
    }
}

#[test]
fn every_damage_and_every_two_at_once() {
    let mut random = Random::new(0x5EED_A003);
    let mut tally = Tally::new("order_expand, damaged");
    for one in DAMAGES {
        for other in DAMAGES {
            if !may_cancel(one, other) {
                compare_damaged(&mut tally, &mut random, one, other);
            }
        }
    }
    for _ in 0..2_000 {
        let (model, rows, columns) = random.pick(&MODELS);
        let n = rows * columns;
        let m = random.between(0, n);
        let short = short_order(&mut random, model, n, m).record();
        compare(&mut tally, &mut random, &short, full_length(rows, columns, m));
    }
    tally.finish(100_000, &NUMBERS);
}

#[test]
fn buffers_around_the_records_length() {
    let mut random = Random::new(0x5EED_A004);
    let mut tally = Tally::new("order_expand, buffers");
    for (model, rows, columns) in MODELS {
        let n = rows * columns;
        for m in 0..=n {
            let short = short_order(&mut random, model, n, m).record();
            let length = full_length(rows, columns, m);
            for lent in [length, length - 1, 0, 1, 2, 3, length + 1] {
                let written = compare(&mut tally, &mut random, &short, lent).is_some();
                assert_eq!(written, lent >= length);
            }
        }
    }
    tally.close(800);
}

#[test]
fn every_head() {
    let mut random = Random::new(0x5EED_A005);
    let mut tally = Tally::new("order_expand, heads");
    for head in 0..=u16::MAX {
        let [model, counted] = head.to_be_bytes();
        compare(&mut tally, &mut random, &[model, counted], 600);
        let m = usize::from(counted >> 1);
        let mut short = vec![model, counted];
        short.extend(random.bytes((12 * m).div_ceil(8)));
        compare(&mut tally, &mut random, &short, 600);
    }
    for short in [&[][..], &[0], &[1], &[5], &[255]] {
        compare(&mut tally, &mut random, short, 600);
    }
    tally.close(131_000);
}
