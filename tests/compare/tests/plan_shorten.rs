//! The proved shortener against the second one, which goes by the rule's own words: the answer, and every byte
//! of the second buffer. What is left is accepted by the proved plan checker, and stays as it is. It is in the
//! edition that was read, and the same moves whichever that was.

use compare::cancelling::{apart_by, hurting, random_sample, Shape, SHAPES};
use compare::floors;
use compare::packed;
use compare::plans;
use compare::proved;
use compare::random::Random;
use compare::tally::{each_met, Hex, Tally};
use compare::write::{Edition, EDITIONS};
use second::answer::Answer;
use second::shortening;

const NUMBERS: [u8; 14] = [0, 10, 11, 12, 13, 14, 30, 31, 32, 33, 34, 35, 36, 37];

type Second = fn(&[u8], &[u8], &mut [u8]) -> Answer<u32>;

/// Shortens the plan twice, in equal buffers, and holds answers and buffers to each other.
#[track_caller]
fn compare(tally: &mut Tally, second: Second, order: &[u8], plan: &[u8], buffer: &mut [u8]) -> u64 {
    let mut other = buffer.to_vec();
    let expected = packed::count(second(order, plan, &mut other));
    tally.compare(proved::plan_shorten(order, plan, buffer), expected, &[order, plan]);
    assert!(other == buffer, "the buffers differ, on {} | {}", Hex(order), Hex(plan));
    expected
}

/// What the accepted answer has written: a plan of this edition, which the plan checker accepts with as many moves,
/// and it does not become shorter. The plan.
#[track_caller]
fn stays<'a>(order: &[u8], edition: Edition, buffer: &'a [u8], answer: u64) -> &'a [u8] {
    let written = &buffer[..edition.length((answer >> 8) as usize)];
    assert_eq!(written[2] & 0b11, edition.spare(), "on {} | {}", Hex(order), Hex(written));
    assert_eq!(proved::plan_check(order, written), answer, "on {} | {}", Hex(order), Hex(written));
    let mut again = vec![0x5A; written.len()];
    assert_eq!(proved::plan_shorten(order, written, &mut again), answer);
    assert!(again == written, "shortened twice it differs, on {} | {}", Hex(order), Hex(written));
    written
}

#[test]
fn plans_made_to_cancel() {
    let mut random = Random::new(0x5EED_E001);
    let mut tally = Tally::new("plan_shorten, plans made to cancel");
    let mut met = [0; SHAPES.len()];
    for _ in 0..135_000 {
        let shape = random.pick(&SHAPES);
        met[shape as usize] += 1;
        let sample = random_sample(&mut random, shape);
        let edition = random.pick(&EDITIONS);
        let (order, plan) = (sample.order.record(), sample.plan(edition).record());
        let length = plan.len() + random.below(3);
        let mut buffer = random.bytes(length);
        let answer = compare(&mut tally, shortening::shorten, &order, &plan, &mut buffer);
        stays(&order, edition, &buffer, answer);
        let left = (answer >> 8) as usize;
        match shape {
            Shape::Nothing | Shape::Everything | Shape::Neighbours => assert_eq!(left, 0, "{shape:?}"),
            Shape::NoneCancels => assert_eq!(left, sample.moves.len(), "{shape:?}"),
            _ => assert!(left <= sample.moves.len(), "{shape:?}"),
        }
    }
    each_met(&SHAPES, &met);
    tally.finish(135_000, &[0]);
}

#[test]
fn sound_and_damaged_plans_with_buffers_around_the_plan_given() {
    let mut random = Random::new(0x5EED_E002);
    let mut tally = Tally::new("plan_shorten");
    for _ in 0..150_000 {
        let (_, case) = plans::random_case(&mut random);
        if case.record.len() > 200 {
            continue; // the rule's own words take long
        }
        let plan = case.record.len();
        let length = match random.below(6) {
            0 => plan.saturating_sub(1),
            1 => random.below(plan + 1),
            2 => plan + random.below(40),
            _ => plan,
        };
        let mut buffer = random.bytes(length);
        compare(&mut tally, shortening::shorten, &case.order, &case.record, &mut buffer);
    }
    tally.finish(100_000, &NUMBERS);
}

#[test]
fn a_second_buffer_one_byte_short_of_the_plan_given() {
    let mut random = Random::new(0x5EED_E003);
    let mut tally = Tally::new("plan_shorten, a byte short");
    for _ in 0..3000 {
        // everything cancels, so that the result would fit with room to spare
        let sample = random_sample(&mut random, Shape::Everything);
        let edition = random.pick(&EDITIONS);
        let (order, plan) = (sample.order.record(), sample.plan(edition).record());
        let mut buffer = random.bytes(plan.len() - 1);
        assert_eq!(compare(&mut tally, shortening::shorten, &order, &plan, &mut buffer), 37);
        let mut buffer = random.bytes(plan.len());
        assert_eq!(compare(&mut tally, shortening::shorten, &order, &plan, &mut buffer), 0);
    }
    tally.finish(6000, &[0, 37]);
}

/// "the shortener writes the edition it read": shortened and then converted is converted and then shortened.
#[test]
fn the_same_moves_are_left_in_both_editions() {
    let mut random = Random::new(0x5EED_E007);
    for _ in 0..30_000 {
        let shape = random.pick(&SHAPES);
        let sample = random_sample(&mut random, shape);
        let order = sample.order.record();
        let [one, two] = EDITIONS.map(|edition| {
            let plan = sample.plan(edition).record();
            let mut buffer = random.bytes(plan.len());
            let answer = proved::plan_shorten(&order, &plan, &mut buffer);
            (answer, stays(&order, edition, &buffer, answer).to_vec())
        });
        assert_eq!(one.0, two.0, "{}", Hex(&order));
        let mut converted = vec![0x5A; two.1.len()];
        assert_eq!(proved::plan_convert(&order, &one.1, &mut converted), one.0);
        assert!(converted == two.1, "the editions differ, on {} | {}", Hex(&order), Hex(&two.1));
    }
}

#[test]
fn the_faster_second_pass_is_the_rule() {
    let mut random = Random::new(0x5EED_E004);
    for _ in 0..20_000 {
        let shape = random.pick(&SHAPES);
        let sample = random_sample(&mut random, shape);
        let (order, plan) = (sample.order.record(), sample.plan(random.pick(&EDITIONS)).record());
        let (mut one, mut two) = (vec![0; plan.len()], vec![0; plan.len()]);
        assert_eq!(
            shortening::shorten(&order, &plan, &mut one),
            shortening::shorten_long(&order, &plan, &mut two)
        );
        assert_eq!(one, two);
    }
}

#[test]
fn long_plans() {
    let mut random = Random::new(0x5EED_E005);
    let mut tally = Tally::new("plan_shorten, long plans");
    // around the bounds of a word, a block and a group of moves, and of the tables for short plans
    for k in [63, 64, 65, 255, 256, 257, 16_383, 16_384, 16_385, 32_768, 100_000] {
        for (m, floor) in [(1, floors::grid(8, 8)), (20, floors::grid(8, 8)), (14, floors::grid(4, 4))] {
            let sample = plans::sound_on(&mut random, floor, m, k);
            for edition in EDITIONS {
                let (order, plan) = (sample.order.record(), sample.plan(edition).record());
                let mut buffer = random.bytes(plan.len() + 5);
                let answer = compare(&mut tally, shortening::shorten_long, &order, &plan, &mut buffer);
                stays(&order, edition, &buffer, answer);
            }
        }
    }
    // around the 512 latest moves, of which the proved shortener knows what was before them
    for count in 500..525 {
        let sample = apart_by(count);
        for edition in EDITIONS {
            let (order, plan) = (sample.order.record(), sample.plan(edition).record());
            let mut buffer = random.bytes(plan.len());
            let answer = compare(&mut tally, shortening::shorten_long, &order, &plan, &mut buffer);
            assert_eq!(answer >> 8, count as u64);
        }
    }
    for k in [20_000, 200_000] {
        for (_, sample) in hurting(k) {
            for edition in EDITIONS {
                let (order, plan) = (sample.order.record(), sample.plan(edition).record());
                let mut buffer = random.bytes(plan.len());
                let answer = compare(&mut tally, shortening::shorten_long, &order, &plan, &mut buffer);
                stays(&order, edition, &buffer, answer);
            }
        }
    }
    tally.close(156);
}

#[test]
fn the_longest_plan() {
    let most = (1 << 22) - 1;
    let sample = plans::to_and_fro(most);
    let mut tally = Tally::new("plan_shorten, 4194303 moves");
    for edition in EDITIONS {
        let (order, plan) = (sample.order.record(), sample.plan(edition).record());
        let mut buffer = vec![0xAA; plan.len()];
        assert_eq!(compare(&mut tally, shortening::shorten_long, &order, &plan, &mut buffer), 1 << 8);
        stays(&order, edition, &buffer, 1 << 8);
    }
    tally.close(2);
}
