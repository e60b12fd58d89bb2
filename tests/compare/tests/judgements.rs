//! The generators and the second implementation against each other, without the proved library: answers
//! that are certain from how a case was made, and judgements made again in the plainest way.

use compare::cases::Case;
use compare::floors::{self, Floor, Shape};
use compare::packed;
use compare::plans;
use compare::random::Random;
use compare::tally::{Hex, Tally};
use compare::timetables;
use compare::trains;
use compare::write::{Move, Order, Step, Timetable, EDITIONS};
use second::breakdown;
use second::making::{make, make_with_cap};
use second::motion::{CAP, NO_CAP};
use second::timetable::{check, check_with_cap};
use std::fmt::Debug;

/// Holds the answers on random cases to what is certain of them, and the numbers met to these.
fn answered_as_made<Damage: Debug>(
    mut tally: Tally,
    seed: u64,
    numbers: &[u8],
    random_case: fn(&mut Random) -> (Damage, Case),
    check: fn(&[u8], &[u8]) -> u64,
) {
    let mut random = Random::new(seed);
    for _ in 0..100_000 {
        let (damage, Case { order, record, answer }) = random_case(&mut random);
        let second = check(&order, &record);
        tally.compare(answer.unwrap_or(second), second, &[format!("{damage:?}").as_bytes(), &order, &record]);
    }
    tally.finish(100_000, numbers);
}

#[test]
fn plans_are_answered_as_they_were_made() {
    let numbers = [0, 10, 11, 12, 13, 14, 30, 31, 32, 33, 34, 35, 36];
    answered_as_made(Tally::new("plans"), 0x5EED_1001, &numbers, plans::random_case, |order, plan| {
        packed::count(second::plan::check(order, plan))
    });
}

#[test]
fn timetables_are_answered_as_they_were_made() {
    let numbers = [0, 10, 11, 12, 13, 14, 40, 41, 42, 43];
    answered_as_made(
        Tally::new("timetables"),
        0x5EED_1002,
        &numbers,
        timetables::random_case,
        |order, timetable| packed::steps_and_moves(check(order, timetable)),
    );
}

/// Whether the step is legal, with its chains followed as the paper says, for each move anew, and of no more moves
/// than the cap. Its moves ascend, are along edges and leave racks.
fn is_legal(starts: &[u8], moves: &[Move], cap: usize) -> bool {
    let once = |&(_, entered): &Move| moves.iter().filter(|other| other.1 == entered).count() == 1;
    let has_leader = |&(_, entered): &Move| {
        let mut at = entered;
        for length in 1..=moves.len() {
            match moves.iter().find(|other| other.0 == at) {
                Some(followed) => at = followed.1,
                None => return !starts.contains(&at) && length <= cap,
            }
        }
        false // as many as there are moves were followed, and none was a leader
    };
    moves.iter().all(once) && moves.iter().all(has_leader)
}

#[test]
fn every_step_on_every_floor_of_four_positions() {
    for cap in [1, 2, 3, CAP] {
        let (mut legal, mut illegal) = (0, 0);
        for n in 1..=4 {
            timetables::every_step(n, |case| match judged(case, cap) {
                0 => legal += 1,
                _ => illegal += 1,
            });
        }
        println!(
            "every step on every floor of up to four positions, cap {cap}: {legal} legal, {illegal} not"
        );
        assert!(legal >= 1000 && illegal >= 1000);
    }
}

/// The number that a timetable of one step meets, 0 if it is accepted, after it was judged anew.
fn judged(case: &timetables::Sample, cap: usize) -> u64 {
    let (order, timetable) = (case.order.record(), case.timetable.record());
    let moves = &case.timetable.steps[0].moves;
    let expected = match is_legal(&case.order.starts, moves, cap) {
        true => 1 << 8 | (moves.len() as u64) << 30,
        false => packed::refused(42, 1),
    };
    let answer = packed::steps_and_moves(check_with_cap(&order, &timetable, cap));
    assert_eq!(answer, expected, "{}| {}", Hex(&order), Hex(&timetable));
    answer & 0xFF
}

/// One chain, and two, of every length up to 20. What is refused for its length alone would be accepted without the
/// cap.
#[test]
fn chains_are_answered_as_they_were_made() {
    let mut random = Random::new(0x5EED_1006);
    let (mut legal, mut too_long, mut no_leader) = (0, 0, 0);
    for chains in (0..20).flat_map(|_| trains::every_one_and_two()) {
        let (sample, answer) = trains::one_step(&mut random, &chains);
        let (order, timetable) = (sample.order.record(), sample.timetable.record());
        let second = packed::steps_and_moves(check(&order, &timetable));
        assert_eq!(second, answer, "{chains:?}: {}| {}", Hex(&order), Hex(&timetable));
        let uncapped = check_with_cap(&order, &timetable, NO_CAP).is_ok();
        match (answer & 0xFF == 0, trains::only_too_long(&chains)) {
            (true, _) => legal += 1,
            (false, true) => too_long += 1,
            (false, false) => no_leader += 1,
        }
        assert_eq!(uncapped, answer & 0xFF == 0 || trains::only_too_long(&chains), "{chains:?}");
    }
    println!(
        "chains: {legal} steps legal, {too_long} with a chain too long, {no_leader} with none that leads"
    );
    assert!(legal >= 1_000 && too_long >= 5_000 && no_leader >= 1_000);
}

/// A floor as the second implementation reads it.
fn read(floor: &Floor) -> second::order::Floor {
    let Floor { n, edges } = floor.clone();
    second::order::read(&Order { n, edges, ..Order::default() }.record()).unwrap().floor
}

#[test]
fn floors_have_the_shape_they_were_made_with() {
    let mut random = Random::new(0x5EED_1003);
    for _ in 0..20_000 {
        for shape in [
            Shape::Ring,
            Shape::BiConnected,
            Shape::Complete,
            Shape::AlmostBiConnected,
            Shape::Tree,
            Shape::TwoParts,
            Shape::FourSided,
        ] {
            let floor = read(&floors::floor_of_shape(&mut random, shape));
            let bi_connected = match shape {
                Shape::Ring | Shape::BiConnected | Shape::FourSided => true,
                Shape::Complete => floor.n >= 3,
                _ => false,
            };
            assert_eq!(second::floor::is_biconnected(&floor), bi_connected, "{shape:?}");
            assert_eq!(second::floor::is_ring(&floor), bi_connected && floor.e == floor.n, "{shape:?}");
            let most = second::floor::most_edges(&floor);
            match shape {
                Shape::Ring => assert_eq!(most, 2),
                Shape::FourSided => assert!(most <= 4),
                Shape::Complete => assert_eq!(most, floor.n - 1),
                _ => {}
            }
        }
    }
    println!("shapes of floors: 140000 floors judged");
}

#[test]
fn breakdowns_of_every_small_floor_and_of_random_ones() {
    let mut found = 0;
    let mut judge = |floor: &Floor| {
        let floor = read(floor);
        let plannable = second::floor::is_biconnected(&floor) && !second::floor::is_ring(&floor);
        let breakdown = breakdown::find(&floor);
        assert_eq!(breakdown.is_some(), plannable);
        if let Some(breakdown) = breakdown {
            assert_eq!(breakdown::broken_rule(&floor, &breakdown), None);
            found += 1;
        }
    };
    for floor in (1..=6).flat_map(floors::every_floor) {
        judge(&floor);
    }
    let mut random = Random::new(0x5EED_1004);
    for _ in 0..2_000 {
        judge(&floors::random_floor(&mut random));
    }
    println!("breakdowns: {found} floors");
    assert!(found >= 10_000);
}

#[test]
fn grids_have_short_rings_and_handles() {
    for rows in 2..=32 {
        for columns in 2..=64 / rows {
            if rows * columns == 4 {
                continue; // a ring
            }
            let breakdown = breakdown::find(&read(&floors::grid(rows, columns))).unwrap();
            assert_eq!(breakdown.ring.len(), 4);
            assert!(breakdown.handles.iter().all(|handle| handle.len() <= 4), "{rows} by {columns}");
        }
    }
}

/// The timetable of a sound plan, with the rule's sentences applied to each move by going through all those before it:
/// "A move's step is the greater of: one more than the step of the same rack's previous move; the step of the latest
/// earlier move that left the position now entered. With neither, it is 1." And "a move that would be ninth goes one
/// step later": the chain that it would be in is followed to its leader.
fn made_plainly(sample: &plans::Sample, cap: usize) -> Timetable {
    let drives = sample.drives();
    let mut steps: Vec<usize> = Vec::new();
    let left_last = |index: usize| drives[..index].iter().rposition(|one| one.0 .0 == drives[index].0 .1);
    for (index, &(_, rack)) in drives.iter().enumerate() {
        let previous = drives[..index].iter().rposition(|one| one.1 == rack).map_or(0, |one| steps[one]);
        let step = usize::max(previous + 1, left_last(index).map_or(0, |one| steps[one]));
        let (mut chain, mut at) = (1, index);
        while let Some(followed) = left_last(at).filter(|&one| steps[one] == step) {
            chain += 1;
            at = followed;
        }
        steps.push(if chain > cap { step + 1 } else { step });
    }
    let mut timetable = Timetable::default();
    timetable.steps.resize(steps.iter().copied().max().unwrap_or(0), Step::default());
    for (&step, &(one, _)) in steps.iter().zip(&drives) {
        timetable.steps[step - 1].moves.push(one);
    }
    timetable.steps.iter_mut().for_each(|step| step.moves.sort_unstable());
    timetable
}

/// The record that the second maker writes with this cap.
fn made(sample: &plans::Sample, cap: usize) -> Vec<u8> {
    let mut buffer = vec![0xAA; 3 * sample.moves.len() + 3];
    let plan = sample.plan(EDITIONS[sample.moves.len() % 2]).record();
    make_with_cap(&sample.order.record(), &plan, &mut buffer, cap).expect("a sound plan");
    buffer.truncate(second::timetable::length(&buffer).expect("a timetable was written"));
    buffer
}

#[test]
fn timetables_are_made_by_the_rule() {
    let mut random = Random::new(0x5EED_1007);
    for cap in [1, 2, 3, CAP, NO_CAP] {
        let (mut shifted, mut in_trains) = (0, 0);
        for _ in 0..3_000 {
            let sample = match random.one_in(4) {
                true => plans::random_sound(&mut random),
                false => trains::plan_in_trains(&mut random),
            };
            let record = made(&sample, cap);
            assert!(record == made_plainly(&sample, cap).record(), "cap {cap}: {:?}", sample.moves);
            assert!(
                check_with_cap(&sample.order.record(), &record, cap).is_ok(),
                "cap {cap}: {:?}",
                sample.moves
            );
            shifted += u32::from(record != made(&sample, NO_CAP));
            in_trains += u32::from(record != made(&sample, 1));
        }
        println!(
            "cap {cap}: 3000 timetables, {shifted} with moves one step later, {in_trains} with followers"
        );
        assert!(cap == NO_CAP || shifted >= 500);
        assert!(cap == 1 || in_trains >= 1_000);
    }
}

/// "In the making rule, a move that would be ninth goes one step later." All other moves stay in their step: without a
/// train of nine the timetable is the same byte for byte, and with one the former timetable meets 42.
#[test]
fn only_timetables_with_trains_of_nine_changed() {
    let mut random = Random::new(0x5EED_1008);
    let (mut same, mut changed) = (0, 0);
    for _ in 0..20_000 {
        let sample = trains::plan_in_trains(&mut random);
        let (former, now) = (made(&sample, NO_CAP), made(&sample, CAP));
        match check(&sample.order.record(), &former) {
            Ok(_) => {
                assert!(former == now, "{:?}", sample.moves);
                same += 1;
            }
            Err(refusal) => {
                assert!(refusal.number == 42 && former != now, "{:?}", sample.moves);
                changed += 1;
            }
        }
    }
    println!("timetables: {same} the same with the cap, {changed} changed");
    assert!(same >= 5_000 && changed >= 5_000);
}

#[test]
fn rows_are_timed_as_they_were_made() {
    let mut random = Random::new(0x5EED_1009);
    for (length, places) in (1..=40).flat_map(|length| (1..=20).map(move |places| (length, places))) {
        let (sample, timetable) = trains::row(&mut random, length, places);
        assert!(made(&sample, CAP) == timetable.record(), "{length} racks, {places} places on");
        assert!(
            made_plainly(&sample, CAP).record() == timetable.record(),
            "{length} racks, {places} places on"
        );
    }
}

#[test]
fn made_timetables_are_accepted() {
    let mut random = Random::new(0x5EED_1005);
    let mut moves = 0;
    for _ in 0..20_000 {
        let sample = plans::random_sound(&mut random);
        let order = sample.order.record();
        let k = sample.moves.len();
        let mut buffer = random.bytes(3 * k + 3);
        let edition = random.pick(&EDITIONS);
        let s = make(&order, &sample.plan(edition).record(), &mut buffer).unwrap();
        let end = (1..=s).fold(3, |at, _| at + second::timetable::step_length(buffer[at]));
        let counts = check(&order, &buffer[..end]).unwrap();
        assert_eq!((counts.steps, counts.moves), (s, k as u32));
        moves += k;
    }
    println!("made timetables: 20000 accepted, {moves} moves");
}
