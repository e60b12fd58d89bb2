//! The proved timetable maker against the second one: the answer, and every byte of the buffer. The timetable of a
//! plan is the same in both editions.

use compare::floors::{self, Floor};
use compare::packed;
use compare::plans;
use compare::proved;
use compare::random::Random;
use compare::tally::{Hex, Tally};
use compare::trains;
use compare::write::{Drive, EDITIONS};
use second::motion::NO_CAP;
use std::collections::HashSet;

const NUMBERS: [u8; 14] = [0, 10, 11, 12, 13, 14, 30, 31, 32, 33, 34, 35, 36, 44];

/// Makes the timetable twice, in equal buffers, and holds answers and buffers to each other.
fn compare(tally: &mut Tally, order: &[u8], plan: &[u8], buffer: &mut [u8]) -> u64 {
    let mut other = buffer.to_vec();
    let expected = packed::count(second::making::make(order, plan, &mut other));
    tally.compare(proved::timetable_make(order, plan, buffer), expected, &[order, plan]);
    assert!(other == buffer, "the buffers differ: {:02X?} | {:02X?}", order, plan);
    expected
}

/// A buffer length at, below or above the limit for k moves.
fn random_length(random: &mut Random, k: usize) -> usize {
    let limit = 3 * k + 3;
    match random.below(8) {
        0 => limit - 1,
        1 => random.below(limit),
        2 => limit + 1,
        3 => limit + random.below(100),
        _ => limit,
    }
}

#[test]
fn sound_and_damaged_plans_with_buffers_around_the_limit() {
    let mut random = Random::new(0x5EED_5001);
    let mut tally = Tally::new("timetable_make");
    for _ in 0..250_000 {
        let (_, case) = plans::random_case(&mut random);
        let k =
            case.record.get(..3).map_or(0, |head| u32::from_be_bytes([0, head[0], head[1], head[2]]) >> 2);
        // a damaged count does not ask for more than a few kilobytes
        let length = random_length(&mut random, usize::min(k as usize, 4000));
        let mut buffer = random.bytes(length);
        compare(&mut tally, &case.order, &case.record, &mut buffer);
    }
    tally.finish(250_000, &NUMBERS);
}

#[test]
fn sound_plans_whatever_the_buffer_held() {
    let mut random = Random::new(0x5EED_5002);
    let mut tally = Tally::new("timetable_make, sound plans");
    for _ in 0..30_000 {
        let sample = plans::random_sound(&mut random);
        let order = sample.order.record();
        let plans = EDITIONS.map(|edition| sample.plan(edition).record());
        let length = 3 * sample.moves.len() + 3 + random.below(20);
        for before in [vec![0; length], vec![0xFF; length], random.bytes(length)] {
            let mut buffers = [before.clone(), before];
            let answers = [0, 1].map(|index| compare(&mut tally, &order, &plans[index], &mut buffers[index]));
            assert_eq!(answers[0], answers[1]);
            assert!(buffers[0] == buffers[1], "the editions differ: {:02X?} | {:02X?}", order, plans);
        }
    }
    tally.finish(180_000, &[0]);
}

/// "In the making rule, a move that would be ninth goes one step later."
#[test]
fn rows_of_up_to_20_racks() {
    let mut random = Random::new(0x5EED_5004);
    let mut tally = Tally::new("timetable_make, rows of 1 to 20 racks");
    for _ in 0..40 {
        for (length, places) in (1..=20).flat_map(|length| (1..=6).map(move |places| (length, places))) {
            let (sample, timetable) = trains::row(&mut random, length, places);
            let (order, timetable) = (sample.order.record(), timetable.record());
            for edition in EDITIONS {
                let mut buffer = vec![0xAA; 3 * sample.moves.len() + 3];
                compare(&mut tally, &order, &sample.plan(edition).record(), &mut buffer);
                assert!(buffer.starts_with(&timetable), "{}| {:?}", Hex(&order), sample.moves);
            }
        }
    }
    tally.finish(9_600, &[0]);
}

/// The timetable differs from that of document 01's rule alone precisely where that one has a train of nine or more.
#[test]
fn plans_in_trains() {
    let mut random = Random::new(0x5EED_5005);
    let mut tally = Tally::new("timetable_make, plans in trains");
    let mut shifted = 0;
    for _ in 0..20_000 {
        let sample = trains::plan_in_trains(&mut random);
        let edition = random.pick(&EDITIONS);
        let (order, plan) = (sample.order.record(), sample.plan(edition).record());
        let mut buffer = vec![0xAA; 3 * sample.moves.len() + 3];
        let mut uncapped = buffer.clone();
        compare(&mut tally, &order, &plan, &mut buffer);
        second::making::make_with_cap(&order, &plan, &mut uncapped, NO_CAP).expect("a sound plan");
        let end = second::timetable::length(&uncapped).expect("a timetable was written");
        let checked = proved::timetable_check(&order, &uncapped[..end]) & 0xFF;
        assert_eq!(checked, if buffer == uncapped { 0 } else { 42 }, "{}| {}", Hex(&order), Hex(&plan));
        shifted += u64::from(buffer != uncapped);
    }
    println!("  with moves that went one step later {shifted}");
    assert!(shifted >= 5_000, "{shifted} timetables with such moves only");
    tally.finish(20_000, &[0]);
}

#[test]
fn long_plans() {
    let mut random = Random::new(0x5EED_5003);
    let mut tally = Tally::new("timetable_make, up to 100000 moves");
    for (m, k) in [(1, 10_000), (1, 4_096), (1, 4_097), (20, 100_000), (62, 100_000), (63, 100_000)] {
        for floor in [floors::grid(8, 8), floors::bi_connected(&mut random, 64)] {
            let sample = plans::sound_on(&mut random, floor, m, k);
            for edition in EDITIONS {
                let mut buffer = random.bytes(3 * k + 10);
                compare(&mut tally, &sample.order.record(), &sample.plan(edition).record(), &mut buffer);
            }
        }
    }
    tally.close(24);
}

/// Lengths at which the plan is passed in more stretches, stretches become longer, or the steps fill a window.
#[test]
fn lengths_around_the_limits() {
    let mut random = Random::new(0x5EED_5006);
    let mut tally = Tally::new("timetable_make, lengths around the limits");
    let limits = [4_096, 8_192, 16_384, 16_512, 20_480, 32_640, 32_768, 65_536];
    let lengths = limits.into_iter().flat_map(|limit| [limit - 1, limit, limit + 1]);
    for (k, m) in lengths.flat_map(|k| [1, 7, 62].map(|m| (k, m))) {
        let sample = plans::sound_on(&mut random, floors::grid(8, 8), m, k);
        for edition in EDITIONS {
            let mut buffer = random.bytes(3 * k + 10);
            compare(&mut tally, &sample.order.record(), &sample.plan(edition).record(), &mut buffer);
        }
    }
    tally.close(144);
}

/// Racks that drive far and then take turns, so that few moves of the plan have steps in many windows.
#[test]
fn racks_far_apart_in_steps() {
    let mut random = Random::new(0x5EED_5007);
    let mut tally = Tally::new("timetable_make, racks far apart in steps");
    // a rack has one position to go to, and no other rack enters it
    let pairs = || Floor::new(64, (0..32).map(|pair| (2 * pair, 2 * pair + 1)));
    let mut most = 0;
    for parts in [
        &[(60_000, 20_000)][..],
        &[(600_000, 40_000), (700_000, 2)],
        &[(150_000, 40_000), (180_000, 100), (400_000, 9_000)],
        &[(20_000, 2), (120_000, 100_000), (140_000, 1), (500_000, 60_000)],
    ] {
        for m in [2, 5, 12, 25] {
            for floor in [pairs(), floors::grid(8, 8), floors::bi_connected(&mut random, 64)] {
                let apart = floor.edges.len() == 32;
                let sample = plans::in_drives(&mut random, floor, m, parts);
                let k = sample.moves.len();
                for edition in EDITIONS {
                    let mut buffer = random.bytes(3 * k + 10);
                    compare(&mut tally, &sample.order.record(), &sample.plan(edition).record(), &mut buffer);
                }
                if apart {
                    most = most.max(windows_of_a_stretch(&sample));
                }
            }
        }
    }
    println!("  a stretch has moves in up to {most} windows");
    assert!(most >= 10, "no stretch has moves in more than {most} windows");
    tally.close(96);
}

/// In how many windows of 4,096 steps some 128th part of a plan has moves, where no rack meets another: a rack's step
/// is then the number of its moves.
fn windows_of_a_stretch(sample: &plans::Sample) -> usize {
    let mut steps = [0; 65];
    let mut windows = |part: &[Drive]| {
        let window = |&(_, rack): &Drive| {
            steps[usize::from(rack)] += 1;
            (steps[usize::from(rack)] - 1) / 4_096
        };
        part.iter().map(window).collect::<HashSet<usize>>().len()
    };
    sample.drives().chunks(sample.moves.len() / 128 + 1).map(|part| windows(part)).max().unwrap_or(0)
}

#[test]
fn the_limit_of_the_longest_plan() {
    let most = (1 << 22) - 1;
    let sample = plans::to_and_fro(most);
    let mut tally = Tally::new("timetable_make, 4194303 moves and a buffer one byte short");
    let mut buffer = vec![0xAA; 3 * most + 2];
    for edition in EDITIONS {
        let plan = sample.plan(edition).record();
        assert_eq!(compare(&mut tally, &sample.order.record(), &plan, &mut buffer), 44);
    }
    tally.close(2);
    let mut tally = Tally::new("timetable_make, 4194303 moves");
    buffer.push(0xAA);
    for edition in EDITIONS {
        let plan = sample.plan(edition).record();
        assert_eq!(compare(&mut tally, &sample.order.record(), &plan, &mut buffer) >> 8, most as u64);
    }
    tally.close(2);
}
