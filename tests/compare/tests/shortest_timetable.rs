//! Request (g): no legal timetable that keeps the routes and visits of a plan has fewer steps than the one made.
//! The proved maker's count of steps is held to a search of all such timetables, on small floors. By request (i) it
//! "ranges over timetables that respect the cap": small floors meet the caps 2 and 3 with the second maker, and the
//! search with a cap of eight is for floors with nine racks and more in a row.

use compare::floors::{self, Floor};
use compare::packed;
use compare::plans::{self, Sample};
use compare::proved;
use compare::random::Random;
use compare::tally::Hex;
use compare::trains;
use compare::write::{Edition, EDITIONS};
use second::motion::{CAP, NO_CAP};
use second::shortest::Kept;
use second::{making, order, plan, timetable};

/// A floor of at most six positions: bi-connected, or with any edges.
fn small_floor(random: &mut Random) -> Floor {
    let n = random.between(2, 6);
    if n > 2 && random.one_in(2) {
        return floors::bi_connected(random, n);
    }
    let mut edges = floors::all_pairs(n);
    random.shuffle(&mut edges);
    edges.truncate(random.between(1, edges.len()));
    Floor::new(n, edges)
}

/// A plan of at most six moves on a small floor that is not full.
fn small_plan(random: &mut Random) -> Sample {
    let floor = small_floor(random);
    let m = random.between(1, floor.n - 1);
    let k = random.between(0, 6);
    plans::sound_on(random, floor, m, k)
}

/// The steps of a timetable in the buffer, which is accepted with this cap and keeps routes and visits.
fn steps_kept(order: &[u8], buffer: &[u8], kept: &Kept, cap: usize) -> u32 {
    let end = second::timetable::length(buffer).expect("a timetable was written");
    let counts = timetable::check_with_cap(order, &buffer[..end], cap).expect("a legal timetable");
    let made = Kept::by_timetable(&order::read(order).expect("a sound order"), &buffer[..end], cap);
    assert_eq!(made, *kept, "{}| {}", Hex(order), Hex(buffer));
    counts.steps
}

/// The count of steps that the proved maker answers; the record that it writes is the second maker's, and keeps routes
/// and visits.
fn steps_made(sample: &Sample, edition: Edition, kept: &Kept) -> u32 {
    let (order, plan) = (sample.order.record(), sample.plan(edition).record());
    let mut buffer = vec![0; 3 * sample.moves.len() + 3];
    let mut other = buffer.clone();
    let steps = packed::to_count(proved::timetable_make(&order, &plan, &mut buffer));
    assert_eq!(steps, making::make(&order, &plan, &mut other), "{}| {}", Hex(&order), Hex(&plan));
    assert_eq!(buffer, other, "{}| {}", Hex(&order), Hex(&plan));
    let steps = steps.expect("a sound plan");
    assert_eq!(steps, steps_kept(&order, &buffer, kept, CAP), "{}| {}", Hex(&order), Hex(&plan));
    steps
}

/// The count of steps that the second maker answers with this cap; its record keeps routes and visits. And whether the
/// cap puts a move one step later.
fn steps_made_with_cap(sample: &Sample, edition: Edition, kept: &Kept, cap: usize) -> (u32, bool) {
    let (order, plan) = (sample.order.record(), sample.plan(edition).record());
    let mut buffer = vec![0; 3 * sample.moves.len() + 3];
    let mut uncapped = buffer.clone();
    let steps = making::make_with_cap(&order, &plan, &mut buffer, cap).expect("a sound plan");
    making::make_with_cap(&order, &plan, &mut uncapped, NO_CAP).expect("a sound plan");
    assert_eq!(steps, steps_kept(&order, &buffer, kept, cap), "{}| {}", Hex(&order), Hex(&plan));
    (steps, buffer != uncapped)
}

/// The order as it is read, and what its plan keeps.
fn kept_by_plan(sample: &Sample, edition: Edition) -> (order::Order, Kept) {
    let order = order::read(&sample.order.record()).expect("a sound order");
    let kept = Kept::by_plan(&order, plan::read(&sample.plan(edition).record()).expect("a sound plan"));
    (order, kept)
}

/// The fewest steps that keep routes and visits, and the fewest that keep the routes alone.
fn searched(sample: &Sample, edition: Edition, cap: usize) -> (Kept, u32, u32) {
    let (order, kept) = kept_by_plan(sample, edition);
    let fewest = kept.fewest_steps(&order, cap).expect("the plan itself, one move in each step");
    let of_routes = kept.fewest_steps_of_routes(&order, cap).expect("so it is with the routes");
    (kept, fewest, of_routes)
}

#[test]
fn none_is_shorter_on_small_floors() {
    let mut random = Random::new(0x5EED_6701);
    let (mut plans, mut parallel, mut shorter_with_other_visits) = (0, 0, 0);
    let mut by_steps = [0; 7];
    for _ in 0..40_000 {
        let sample = small_plan(&mut random);
        let edition = random.pick(&EDITIONS);
        let (kept, fewest, of_routes) = searched(&sample, edition, CAP);
        let made = steps_made(&sample, edition, &kept);
        assert_eq!(made, fewest, "{}| {}", Hex(&sample.order.record()), Hex(&sample.plan(edition).record()));
        assert!(of_routes <= fewest);
        plans += 1;
        parallel += u32::from((made as usize) < sample.moves.len());
        shorter_with_other_visits += u32::from(of_routes < fewest);
        by_steps[made as usize] += 1;
    }
    println!("{plans} plans, {parallel} with fewer steps than moves; by their steps: {by_steps:?}");
    println!("of {shorter_with_other_visits} a timetable of the same routes and other visits is shorter");
    assert!(plans >= 10_000 && parallel >= 10_000 && shorter_with_other_visits >= 100);
}

/// A plan of at most six moves on a small floor with one vacancy or two, in trains or not.
fn small_plan_of_trains(random: &mut Random) -> Sample {
    let floor = small_floor(random);
    let m = floor.n - random.between(1, 2).min(floor.n - 1);
    let k = random.between(2, 6);
    match random.one_in(4) {
        true => plans::sound_on(random, floor, m, k),
        false => trains::sound_on(random, floor, m, k),
    }
}

/// "the shortest-timetable result ranges over timetables that respect the cap"
#[test]
fn none_that_respects_a_cap_of_two_or_three_is_shorter() {
    let mut random = Random::new(0x5EED_6703);
    for cap in [2, 3] {
        let (mut shifted, mut longer) = (0, 0);
        for _ in 0..40_000 {
            let sample = small_plan_of_trains(&mut random);
            let edition = random.pick(&EDITIONS);
            let (kept, fewest, of_routes) = searched(&sample, edition, cap);
            let (made, is_shifted) = steps_made_with_cap(&sample, edition, &kept, cap);
            assert_eq!(made, fewest, "cap {cap}: {}| {:?}", Hex(&sample.order.record()), sample.moves);
            assert!(of_routes <= fewest);
            shifted += u32::from(is_shifted);
            longer += u32::from(made > steps_made_with_cap(&sample, edition, &kept, NO_CAP).0);
        }
        println!(
            "cap {cap}: 40000 plans, {shifted} with moves one step later, {longer} with more steps for it"
        );
        assert!(shifted >= 2_000 && longer >= 1_000);
    }
}

/// A row of nine to eleven racks that goes one place on or two, or a plan of trains on a floor of ten to twelve
/// positions with one vacancy.
fn plan_of_long_trains(random: &mut Random) -> Sample {
    let length = random.between(9, 11);
    if random.one_in(2) {
        let places = random.between(1, 2);
        return trains::row(random, length, places).0;
    }
    let floor = floors::bi_connected(random, length + 1);
    let k = random.between(9, 14);
    trains::sound_on(random, floor, length, k)
}

#[test]
fn none_that_respects_the_cap_of_eight_is_shorter() {
    let mut random = Random::new(0x5EED_6704);
    let (mut plans, mut shifted) = (0, 0);
    while shifted < 1_000 {
        let sample = plan_of_long_trains(&mut random);
        let edition = random.pick(&EDITIONS);
        let (order, kept) = kept_by_plan(&sample, edition);
        let made = steps_made(&sample, edition, &kept);
        assert_eq!(
            Some(made),
            kept.fewest_steps(&order, CAP),
            "{}| {:?}",
            Hex(&sample.order.record()),
            sample.moves
        );
        shifted += u32::from(steps_made_with_cap(&sample, edition, &kept, CAP).1);
        plans += 1;
    }
    println!("cap 8: {plans} plans, {shifted} with moves one step later");
}

/// Rack 1 goes from 0 through 2 and 1 back to 0, and then rack 2 from 3 to 1 and back, on the case book's floor.
#[test]
fn with_other_visits_fewer_steps_may_do() {
    let floor = Floor::new(4, [(0, 1), (0, 2), (1, 2), (1, 3), (2, 3)]);
    let mut random = Random::new(0x5EED_6702);
    let mut sample = plans::sound_on(&mut random, floor, 2, 0);
    sample.order.starts = vec![0, 3];
    sample.order.goals = vec![0, 3];
    sample.moves = vec![(0, 2), (2, 1), (1, 0), (3, 1), (1, 3)];
    for edition in EDITIONS {
        let (kept, fewest, of_routes) = searched(&sample, edition, CAP);
        assert_eq!(kept.routes, [vec![0, 2, 1, 0], vec![3, 1, 3]]);
        assert_eq!(kept.visits, [vec![1, 1], vec![1, 2], vec![1], vec![2, 2]]);
        assert_eq!((steps_made(&sample, edition, &kept), fewest, of_routes), (4, 4, 3));
    }
}
