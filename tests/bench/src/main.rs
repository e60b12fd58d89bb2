//! Prints how fast each proved function and the second implementation are on the same inputs, and how
//! good the planner's plans are. Nothing depends on the times. With a path as its argument it writes the figure of the
//! documents there instead.

mod quality;

use compare::cancelling;
use compare::floors::{self, Floor};
use compare::orders;
use compare::plans;
use compare::proved;
use compare::random::Random;
use compare::short_orders::{self, MODELS};
use compare::timetables;
use compare::trains;
use compare::write::{Edition, Order, EDITIONS};
use second::live::{Call, Role};
use second::motion::Arrangement;
use std::hint::black_box;
use std::time::Instant;

/// Rounds that each function is measured; the best counts.
const ROUNDS: usize = 7;

fn main() {
    if let Some(path) = std::env::args().nth(1) {
        return quality::write_figure(&path);
    }
    println!("Proved library and second implementation: same inputs, both built for release, time of one");
    println!("call, best of {ROUNDS} rounds. A ratio above 1 means that the proved function is the faster.");
    println!("Buffers that are written are cleared to zero before each call, outside the measured time.");
    println!("{:<16} {:<44} {:>12} {:>12} {:>6}", "function", "input", "proved", "second", "ratio");
    order_check();
    order_expand();
    floor_check();
    one_vacancy();
    breakdown();
    clear();
    plan_check();
    plan_convert();
    plan_shorten();
    timetable_check();
    timetable_step();
    live_floor();
    timetable_make();
    season_report();
    dearest_carry();
    quality::print_table();
    quality::print_shortest();
    quality::print_rings();
    quality::print_shortened();
}

/// Seconds that one of so many calls takes.
fn seconds(calls: usize, call: &mut impl FnMut() -> u64) -> f64 {
    let start = Instant::now();
    for _ in 0..calls {
        black_box(call());
    }
    start.elapsed().as_secs_f64() / calls as f64
}

/// Measures both in turn and prints the line. Both have to answer the same.
fn compare_speed(
    function: &str,
    input: &str,
    calls: usize,
    mut proved: impl FnMut() -> u64,
    mut second: impl FnMut() -> u64,
) {
    assert_eq!(proved(), second(), "{function}, {input}: the answers differ");
    let (mut of_proved, mut of_second) = (f64::MAX, f64::MAX);
    for _ in 0..ROUNDS {
        of_proved = of_proved.min(seconds(calls, &mut proved));
        of_second = of_second.min(seconds(calls, &mut second));
    }
    let ratio = of_second / of_proved;
    println!("{function:<16} {input:<44} {:>12} {:>12} {ratio:>6.2}", shown(of_proved), shown(of_second));
}

/// A time with three digits or more, and its unit.
fn shown(seconds: f64) -> String {
    match seconds {
        s if s < 1e-6 => format!("{:.1} ns", s * 1e9),
        s if s < 1e-3 => format!("{:.2} us", s * 1e6),
        s => format!("{:.2} ms", s * 1e3),
    }
}

/// The case book's order.
const CASE_BOOK: [u8; 14] =
    [0x08, 0x0A, 0x08, 0x00, 0x10, 0x02, 0x04, 0x20, 0x43, 0x08, 0x30, 0x03, 0x0C, 0x00];

/// The largest order: 64 positions, 255 edges, 64 racks.
fn largest_order() -> Vec<u8> {
    let mut edges: Vec<(u8, u8)> =
        floors::all_pairs(64).into_iter().map(|(a, b)| (a as u8, b as u8)).collect();
    edges.truncate(255);
    let places: Vec<u8> = (0..64).collect();
    Order { n: 64, edges, starts: places.clone(), goals: places, spare: 0, pad: 0 }.record()
}

fn order_check() {
    let second = |order: &[u8]| compare::packed::nothing(second::order::check(order));
    let mut random = Random::new(0xBE_0001);
    let largest = largest_order();
    let many: Vec<Vec<u8>> = (0..1000).map(|_| orders::random_order(&mut random).record()).collect();
    let line = |input, calls, order: &[u8]| {
        compare_speed(
            "order_check",
            input,
            calls,
            || proved::order_check(black_box(order)),
            || second(black_box(order)),
        )
    };
    line("case book, 14 bytes", 200_000, &CASE_BOOK);
    line("64 positions, 255 edges, 64 racks, 482 bytes", 20_000, &largest);
    compare_speed(
        "order_check",
        "1000 random sound orders",
        20,
        || many.iter().map(|order| proved::order_check(order)).sum(),
        || many.iter().map(|order| second(order)).sum(),
    );
}

fn order_expand() {
    let mut random = Random::new(0xBE_0007);
    for (model, rows, columns) in MODELS {
        let n = rows * columns;
        let short = short_orders::short_order(&mut random, model, n, n - 2).record();
        let mut proved_buffer = [0; 576];
        let mut second_buffer = [0; 576];
        compare_speed(
            "order_expand",
            &format!("model {model}, {rows} by {columns}, {} racks", n - 2),
            20_000,
            || proved::order_expand(black_box(&short), &mut proved_buffer),
            || {
                let full = second::models::expand(black_box(&short), second_buffer.len());
                let answer = full.map(|record| {
                    second_buffer[..record.len()].copy_from_slice(&record);
                    record.len() as u32
                });
                compare::packed::count(answer)
            },
        );
    }
}

fn floor_check() {
    let second = |order: &[u8]| compare::packed::nothing(second::floor::check(order));
    let mut random = Random::new(0xBE_0002);
    let grid = orders::order_on(&mut random, &floors::grid(8, 8), 62).record();
    let floor = floors::floor_of_shape(&mut random, floors::Shape::Complete);
    let complete = orders::order_on(&mut random, &floor, 0).record();
    let line = |input: &str, order: &[u8]| {
        compare_speed(
            "floor_check",
            input,
            1000,
            || proved::floor_check(black_box(order)),
            || second(black_box(order)),
        )
    };
    line("8 by 8 grid", &grid);
    line(&format!("complete, {} positions", floor.n), &complete);
}

fn one_vacancy() {
    let second = |order: &[u8]| compare::packed::judgement(second::vacancy::check(order));
    let mut random = Random::new(0xBE_000B);
    let ring = Floor::new(64, (0..64).map(|at| (at, (at + 1) % 64)));
    for (input, floor) in [("8 by 8 grid, 63 racks", floors::grid(8, 8)), ("ring of 64, 63 racks", ring)] {
        let order = orders::order_on(&mut random, &floor, 63).record();
        compare_speed(
            "one_vacancy",
            input,
            1000,
            || proved::one_vacancy(black_box(&order)),
            || second(black_box(&order)),
        );
    }
}

/// The time on the 8 by 8 grid, and how long rings and handles come out on random floors. Both are read from
/// an order; which of the shortest handles is taken is left open, so only the ring's size is the same.
fn breakdown() {
    use compare::breakdowns::{longest_handle, proved_breakdown, ROWS};
    use second::breakdown::{find, Breakdown};

    let found = |order: &[u8]| find(&second::order::read(order).ok()?.floor);
    let mut random = Random::new(0xBE_0006);
    let grid = orders::order_on(&mut random, &floors::grid(8, 8), 62).record();
    let mut buffer = [0; ROWS];
    compare_speed(
        "breakdown",
        "8 by 8 grid",
        20,
        || proved::inspect_breakdown(black_box(&grid), &mut buffer) & 0xFF,
        || found(black_box(&grid)).map_or(0, |breakdown| breakdown.ring.len() as u64),
    );
    let many: Vec<Vec<u8>> = (0..1000)
        .map(|_| {
            let n = random.between(4, 64);
            let floor = floors::bi_connected(&mut random, n);
            orders::order_on(&mut random, &floor, 0).record()
        })
        .collect();
    let sums = |found: &dyn Fn(&[u8]) -> Option<Breakdown>| {
        let breakdowns: Vec<Breakdown> = many.iter().filter_map(|order| found(order)).collect();
        let rings: usize = breakdowns.iter().map(|breakdown| breakdown.ring.len()).sum();
        let longest: usize = breakdowns.iter().map(longest_handle).sum();
        format!("{rings} and {longest}")
    };
    println!(
        "breakdown        1000 random floors, the sums of the ring sizes and of the inner positions of the"
    );
    println!("                 longest handles: proved {}, second {}", sums(&proved_breakdown), sums(&found));
}

/// Each position of the 8 by 8 grid cleared, from an order's bytes, with a few held.
fn clear() {
    let mut random = Random::new(0xBE_0008);
    let grid = orders::order_on(&mut random, &floors::grid(8, 8), 62).record();
    let held = random.number() & random.number() & random.number();
    let mut racks = [0; 64];
    compare_speed(
        "clear",
        "8 by 8 grid, 62 racks, every position",
        200,
        || (0..64).map(|at| proved::inspect_clear(black_box(&grid), held, at, &mut racks)).sum(),
        || (0..64).map(|at| second::clearing::answer(black_box(&grid), held, at, 64)).sum(),
    );
}

/// A plan of so many moves on an 8 by 8 grid, and its order.
fn grid_plan(m: usize, moves: usize, edition: Edition) -> (Vec<u8>, Vec<u8>) {
    let mut random = Random::new(0xBE_0003);
    let sample = plans::sound_on(&mut random, floors::grid(8, 8), m, moves);
    (sample.order.record(), sample.plan(edition).record())
}

/// The racks, the moves and the calls of the plans that are checked and converted.
const PLANS: [(usize, usize, usize); 3] = [(62, 1_354, 500), (62, 2_097_152, 1), (32, 2_097_152, 1)];

/// What a line on such a plan says of it.
fn grid_input(m: usize, moves: usize, edition: Edition) -> String {
    match edition {
        Edition::One => format!("8 by 8 grid, {m} racks, {moves} moves"),
        Edition::Two => format!("{m} racks, {moves} moves, edition two"),
    }
}

fn plan_check() {
    for edition in EDITIONS {
        for (m, moves, calls) in PLANS {
            let (order, plan) = grid_plan(m, moves, edition);
            compare_speed(
                "plan_check",
                &grid_input(m, moves, edition),
                calls,
                || proved::plan_check(black_box(&order), &plan),
                || compare::packed::count(second::plan::check(black_box(&order), &plan)),
            );
        }
    }
}

/// From each edition to the other: a line names the one that is read.
fn plan_convert() {
    for edition in EDITIONS {
        for (m, moves, calls) in PLANS {
            let (order, plan) = grid_plan(m, moves, edition);
            let length = edition.other().length(moves);
            let (mut one, mut two) = (vec![0; length], vec![0; length]);
            compare_speed(
                "plan_convert",
                &grid_input(m, moves, edition),
                calls,
                || proved::plan_convert(black_box(&order), &plan, &mut one),
                || compare::packed::count(second::converting::convert(black_box(&order), &plan, &mut two)),
            );
        }
    }
}

/// Random plans, and the plans that a search for what cancels has to be made for. The second implementation's
/// faster pass is the other side: it keeps two links for each move in a vector.
fn plan_shorten() {
    let most = 2_097_152;
    for (m, moves, calls) in [(62, 1_354, 500), (62, most, 1), (32, most, 1), (1, most, 1)] {
        let (order, plan) = grid_plan(m, moves, Edition::One);
        shorten_line(&grid_input(m, moves, Edition::One), &order, &plan, calls);
    }
    let (order, plan) = grid_plan(62, most, Edition::Two);
    shorten_line(&grid_input(62, most, Edition::Two), &order, &plan, 1);
    for (name, sample) in cancelling::hurting(most) {
        let input = format!("{} moves, {name}", sample.moves.len());
        shorten_line(&input, &sample.order.record(), &sample.plan(Edition::One).record(), 1);
    }
}

fn shorten_line(input: &str, order: &[u8], plan: &[u8], calls: usize) {
    let (mut one, mut two) = (vec![0; plan.len()], vec![0; plan.len()]);
    compare_speed(
        "plan_shorten",
        input,
        calls,
        || proved::plan_shorten(black_box(order), plan, &mut one),
        || compare::packed::count(second::shortening::shorten_long(black_box(order), plan, &mut two)),
    );
}

/// A timetable of so many steps on an 8 by 8 grid, with its order and its moves.
fn grid_timetable(m: usize, steps: usize) -> (Vec<u8>, Vec<u8>, usize) {
    let mut random = Random::new(0xBE_0004);
    let sample = timetables::sound_on(&mut random, floors::grid(8, 8), m, steps);
    (sample.order.record(), sample.timetable.record(), sample.timetable.move_count())
}

fn timetable_check() {
    for (m, steps, calls) in [(62, 223, 500), (62, 1_000_000, 1), (32, 1_000_000, 1)] {
        let (order, timetable, moves) = grid_timetable(m, steps);
        compare_speed(
            "timetable_check",
            &format!("{m} racks, {steps} steps, {moves} moves"),
            calls,
            || proved::timetable_check(black_box(&order), &timetable),
            || compare::packed::steps_and_moves(second::timetable::check(black_box(&order), &timetable)),
        );
    }
}

fn timetable_step() {
    for (steps, calls) in [(223, 1000), (1_000_000, 1)] {
        let (_, timetable, _) = grid_timetable(62, steps);
        compare_speed(
            "timetable_step",
            &format!("the last of {steps} steps"),
            calls,
            || proved::timetable_step(black_box(&timetable), steps as u64),
            || compare::packed::part(second::timetable::step(black_box(&timetable), steps as u64)),
        );
    }
}

/// The last step of a timetable taken back and run again, the timetable checked by both calls.
fn live_floor() {
    for (steps, calls) in [(223, 200), (1_000_000, 1)] {
        let (order, timetable, _) = grid_timetable(62, steps);
        let mut picture = second::live::CLOSED;
        let mut call =
            |kind| second::live::call(&mut picture, kind, Some(Role::Supervisor), &order, &timetable);
        call(Call::Open).expect("opened");
        // after the last step each rack stands at its goal
        let goals = second::order::read(&order).expect("a sound order");
        picture.racks = Arrangement::of(goals.goals()).racks();
        picture.steps = steps as u32;
        let mut floor =
            proved::Floor { racks: picture.racks, steps: picture.steps, positions: picture.positions };
        compare_speed(
            "live floor",
            &format!("taken back and run again, the last of {steps} steps"),
            calls,
            || {
                let back = proved::floor_take_back(black_box(&mut floor), 3, &order, &timetable);
                back + proved::floor_run(black_box(&mut floor), 3, &order, &timetable)
            },
            || {
                let mut call =
                    |kind| second::live::call(&mut picture, kind, Some(Role::Supervisor), &order, &timetable);
                compare::packed::count(call(Call::TakeBack)) + compare::packed::count(call(Call::Run))
            },
        );
    }
}

/// A season of the same order and timetable again and again, and what the timetable checker alone takes for them: the
/// season report looks for each pair's end besides.
fn season_report() {
    for (m, steps, pairs) in [(62, 223, 1000), (62, 1_000_000, 4), (32, 1_000_000, 4)] {
        let (order, timetable, moves) = grid_timetable(m, steps);
        let season = [&order[..], &timetable].concat().repeat(pairs);
        let mut numbers = [0; 5];
        compare_speed(
            "season_report",
            &format!("{pairs} pairs of {steps} steps, {moves} moves"),
            1,
            || proved::season_report(black_box(&season), &mut numbers),
            || compare::packed::nothing(second::season::report(black_box(&season))),
        );
        let (mut report, mut check) = (f64::MAX, f64::MAX);
        for _ in 0..ROUNDS {
            report = report.min(seconds(1, &mut || proved::season_report(black_box(&season), &mut numbers)));
            check = check.min(seconds(1, &mut || {
                (0..pairs).map(|_| proved::timetable_check(black_box(&order), &timetable)).sum()
            }));
        }
        let speed = |time: f64| season.len() as f64 / time / 1e6;
        println!(
            "                 {:.0} MB a second; the timetable checker alone, pair by pair, {:.0}: ratio {:.2}",
            speed(report),
            speed(check),
            check / report
        );
    }
}

/// The dearest carry: on the 8 by 8 grid every pair of opposite corners is as dear, on a path of 64 its two ends are.
fn dearest_carry() {
    let grid = floors::grid(8, 8);
    let path = floors::Floor::new(64, (1..64).map(|at| (at - 1, at)));
    let star = floors::Floor::new(64, (1..64).map(|at| (0, at)));
    let mut random = Random::new(0xBE_000B);
    for (input, floor) in [("8 by 8", grid), ("a path of 64", path), ("a star of 64", star)] {
        let order = orders::order_on(&mut random, &floor, 0).record();
        let (mut proved_buffer, mut second_buffer) = ([0; 145], [0; 145]);
        compare_speed(
            "dearest_carry",
            input,
            2_000,
            || proved::dearest_carry(black_box(&order), &mut proved_buffer),
            || compare::packed::carry(second::carry::find(black_box(&order), &mut second_buffer)),
        );
    }
}

fn timetable_make() {
    for (m, moves, edition) in [
        (62, 1_354, Edition::One),
        (62, 21_844, Edition::One),
        (62, 2_097_152, Edition::One),
        (1, 2_097_152, Edition::One),
        (62, 2_097_152, Edition::Two),
    ] {
        let (order, plan) = grid_plan(m, moves, edition);
        make_line(&grid_input(m, moves, edition), &order, &plan, moves);
    }
    // racks that follow each other, up to 20 of them: many a move would be ninth in its train
    let mut random = Random::new(0xBE_000A);
    let sample = trains::sound_on(&mut random, floors::grid(8, 8), 62, 2_097_152);
    let (plan, moves) = (sample.plan(Edition::One).record(), sample.moves.len());
    make_line(&format!("62 racks, {moves} moves, long trains"), &sample.order.record(), &plan, moves);
}

fn make_line(input: &str, order: &[u8], plan: &[u8], moves: usize) {
    let mut buffer = vec![0; 3 * moves + 3];
    let (mut of_proved, mut of_second) = (f64::MAX, f64::MAX);
    for _ in 0..if moves > 1_000_000 { 3 } else { ROUNDS } {
        buffer.fill(0);
        of_proved = of_proved.min(seconds(1, &mut || proved::timetable_make(order, plan, &mut buffer)));
        buffer.fill(0);
        of_second = of_second
            .min(seconds(1, &mut || compare::packed::count(second::making::make(order, plan, &mut buffer))));
    }
    let ratio = of_second / of_proved;
    println!(
        "{:<16} {input:<44} {:>12} {:>12} {ratio:>6.2}",
        "timetable_make",
        shown(of_proved),
        shown(of_second)
    );
}
