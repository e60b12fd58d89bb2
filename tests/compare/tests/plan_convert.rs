//! The proved converter: its answer, and every byte of its buffer. The other edition of a plan is known from the
//! moves that it was made of and from the racks that they move; what is not known so is the second converter's.

use compare::floors;
use compare::orders;
use compare::packed;
use compare::plans::{self, Sample};
use compare::proved;
use compare::random::Random;
use compare::readers::restored;
use compare::tally::{each_met, Hex, Tally};
use compare::write::{Edition, EDITIONS};
use second::converting;

const NUMBERS: [u8; 14] = [0, 10, 11, 12, 13, 14, 30, 31, 32, 33, 34, 35, 36, 38];

/// Converts the plan twice, in equal buffers, and holds answers and buffers to each other.
#[track_caller]
fn compare(tally: &mut Tally, order: &[u8], plan: &[u8], buffer: &mut [u8]) -> u64 {
    let mut other = buffer.to_vec();
    let expected = packed::count(converting::convert(order, plan, &mut other));
    tally.compare(proved::plan_convert(order, plan, buffer), expected, &[order, plan]);
    assert!(other == buffer, "the buffers differ, on {} | {}", Hex(order), Hex(plan));
    expected
}

/// Converts the plan into a buffer with so many bytes more than are due: the record that is due comes first, and
/// every byte behind it stays.
#[track_caller]
fn converted(tally: &mut Tally, random: &mut Random, order: &[u8], plan: &[u8], due: &[u8], more: usize) {
    let before = random.bytes(due.len() + more);
    let mut buffer = before.clone();
    let k = u64::from(u32::from_be_bytes([0, plan[0], plan[1], plan[2]]) >> 2);
    assert_eq!(compare(tally, order, plan, &mut buffer), k << 8, "{} | {}", Hex(order), Hex(plan));
    let (record, behind) = buffer.split_at(due.len());
    assert!(record == due, "{} and not {}, on {} | {}", Hex(record), Hex(due), Hex(order), Hex(plan));
    assert!(
        behind == &before[due.len()..],
        "a byte behind the record changed, on {} | {}",
        Hex(order),
        Hex(plan)
    );
}

/// From each edition to the other and back again, the records being written from the fields.
#[track_caller]
fn there_and_back(tally: &mut Tally, random: &mut Random, sample: &Sample) {
    let order = sample.order.record();
    let records = EDITIONS.map(|edition| sample.plan(edition).record());
    for edition in EDITIONS {
        let (plan, other) = (&records[edition as usize], &records[edition.other() as usize]);
        let more = random.below(3) * random.below(10);
        converted(tally, random, &order, plan, other, more);
        restored(&order, plan);
    }
}

#[test]
fn there_and_back_from_both_editions() {
    let mut random = Random::new(0x5EED_4101);
    let mut tally = Tally::new("plan_convert, there and back");
    for _ in 0..60_000 {
        let sample = plans::random_sound(&mut random);
        there_and_back(&mut tally, &mut random, &sample);
    }
    tally.finish(120_000, &[0]);
}

#[test]
fn sound_and_damaged_plans_with_buffers_around_the_other_editions_record() {
    let mut random = Random::new(0x5EED_4102);
    let mut tally = Tally::new("plan_convert");
    let kinds = plans::kinds();
    let mut met = vec![0; kinds.len()];
    for _ in 0..300_000 {
        let (kind, case) = plans::random_case(&mut random);
        let k = second::plan::read(&case.record).map_or(10, |plan| plan.k);
        let enough = kind.0.other().length(k);
        let length = match random.below(8) {
            0 => enough - 1,
            1 => random.below(enough),
            2 => enough + random.below(40),
            _ => enough,
        };
        let mut buffer = random.bytes(length);
        let answer = compare(&mut tally, &case.order, &case.record, &mut buffer);
        // what is certain of the checker's answer is certain here, and 38 comes last
        if let Some(checked) = case.answer {
            let due = if checked & 0xFF == 0 && length < enough { 38 } else { checked };
            assert_eq!(answer, due, "{kind:?}: {} | {}", Hex(&case.order), Hex(&case.record));
        }
        if answer & 0xFF == 0 {
            restored(&case.order, &case.record);
        }
        met[kinds.iter().position(|&one| one == kind).expect("a kind")] += 1;
    }
    each_met(&kinds, &met);
    tally.finish(300_000, &NUMBERS);
}

/// 38 "the converter's buffer is too short, last": one byte less than the other edition's record.
#[test]
fn a_buffer_a_byte_short_of_the_other_editions_record() {
    let mut random = Random::new(0x5EED_4103);
    let mut tally = Tally::new("plan_convert, a byte short");
    for _ in 0..5_000 {
        let sample = plans::random_sound(&mut random);
        let order = sample.order.record();
        for edition in EDITIONS {
            let plan = sample.plan(edition).record();
            let due = sample.plan(edition.other()).record();
            let before = random.bytes(due.len() - 1);
            let mut buffer = before.clone();
            assert_eq!(compare(&mut tally, &order, &plan, &mut buffer), 38);
            assert!(buffer == before, "refused, and the buffer changed: {} | {}", Hex(&order), Hex(&plan));
            converted(&mut tally, &mut random, &order, &plan, &due, 0);
        }
    }
    tally.finish_each(20_000, 10_000, &[0, 38]);
}

#[test]
fn a_buffer_of_every_length() {
    let mut random = Random::new(0x5EED_4104);
    let mut tally = Tally::new("plan_convert, buffers of every length");
    for k in 0..=40 {
        let sample = plans::sound_on(&mut random, floors::grid(3, 3), 7, k);
        for edition in EDITIONS {
            let (order, plan) = (sample.order.record(), sample.plan(edition).record());
            let due = sample.plan(edition.other()).record();
            for length in 0..due.len() {
                let mut buffer = vec![0xAA; length];
                assert_eq!(compare(&mut tally, &order, &plan, &mut buffer), 38, "{length} bytes");
                assert!(buffer.iter().all(|&byte| byte == 0xAA), "refused, and the buffer changed");
            }
            for more in 0..4 {
                converted(&mut tally, &mut random, &order, &plan, &due, more);
            }
        }
    }
    tally.finish_each(3_600, 300, &[0, 38]);
}

/// The planner's own plans are read by a screen that knows edition one, and are restored.
#[test]
fn the_planners_plans() {
    let mut random = Random::new(0x5EED_4105);
    let mut tally = Tally::new("plan_convert, the planner's plans");
    for _ in 0..2_000 {
        let n = random.between(4, 12);
        let floor = floors::four_sided(&mut random, n);
        if floor.edges.len() == n {
            continue; // a ring
        }
        let m = random.between(0, n - 2);
        let order = orders::order_on(&mut random, &floor, m).record();
        let mut plan = random.bytes(18 * n.pow(3) + 3);
        let planned = proved::plan_make(&order, &mut plan);
        let k = packed::to_count(planned).expect("it can be planned") as usize;
        plan.truncate(Edition::Two.length(k));
        let mut one = random.bytes(Edition::One.length(k));
        assert_eq!(compare(&mut tally, &order, &plan, &mut one), planned);
        assert_eq!(proved::plan_check(&order, &one), planned);
        let mut two = random.bytes(plan.len());
        assert_eq!(compare(&mut tally, &order, &one, &mut two), planned);
        assert!(two == plan, "there and back it differs, on {} | {}", Hex(&order), Hex(&plan));
    }
    tally.finish(2_000, &[0]);
}

#[test]
fn long_plans() {
    let mut random = Random::new(0x5EED_4106);
    let mut tally = Tally::new("plan_convert, up to 4194303 moves");
    for m in [1, 20, 61, 62, 63] {
        for floor in [floors::grid(8, 8), floors::bi_connected(&mut random, 64)] {
            let k = random.between(100_000, 100_003);
            let sample = plans::sound_on(&mut random, floor, m, k);
            there_and_back(&mut tally, &mut random, &sample);
        }
    }
    let most = (1 << 22) - 1;
    for k in [2_097_152, most - 1, most] {
        there_and_back(&mut tally, &mut random, &plans::to_and_fro(k));
    }
    tally.finish_each(26, 26, &[0]);
}
