//! Four sides only: request (j). The planner refuses floors with a position of five or more edges; everything else
//! takes them as before.

use compare::floors::{self, Floor};
use compare::orders;
use compare::packed;
use compare::plans;
use compare::proved;
use compare::random::Random;
use compare::tally::{Hex, Tally};
use compare::write::{Order, EDITIONS};
use second::floor::{is_biconnected, most_edges};

/// The buffer length that is enough for n positions.
fn enough(n: usize) -> usize {
    18 * n.pow(3) + 3
}

/// Judges the order by both functions that do, with a plan buffer of this length. The number, 0 where it is accepted.
fn judge(tally: &mut Tally, order: &[u8], length: usize) -> u8 {
    let expected = packed::nothing(second::floor::check(order));
    assert_eq!(proved::floor_check(order), expected, "{}", Hex(order));
    let before = vec![0x55; length];
    let mut buffer = before.clone();
    let answer = packed::to_count(proved::plan_make(order, &mut buffer));
    if let Some(fault) = second::planning::fault(order, &before, &buffer, answer) {
        panic!("{fault}, on {}", Hex(order));
    }
    tally.count(packed::count(answer));
    answer.map_or_else(|refusal| refusal.number, |_| 0)
}

/// How many edges the position has that has the most, counted in the list of the edges.
fn most_sides(floor: &Floor) -> usize {
    let edges_at =
        |p: usize| floor.edges.iter().filter(|&&(a, b)| usize::from(a) == p || usize::from(b) == p).count();
    (0..floor.n).map(edges_at).max().unwrap_or(0)
}

/// The same order, with each goal where the rack starts.
fn standing_still(order: &Order) -> Order {
    Order { goals: order.starts.clone(), ..order.clone() }
}

#[test]
fn four_sides_are_planned_and_five_are_not() {
    let mut random = Random::new(0x5EED_1A01);
    let mut tally = Tally::new("sides, four and five exactly");
    for _ in 0..6_000 {
        for sides in [4, 5] {
            let most = if random.one_in(20) { 24 } else { 9 };
            let n = random.between(sides + 1, most);
            let floor = floors::with_sides(&mut random, n, sides);
            let most = most_sides(&floor);
            assert!(most >= sides);
            let m = random.between(0, n - 2);
            let order = orders::order_on(&mut random, &floor, m);
            for order in [standing_still(&order), order] {
                let number = judge(&mut tally, &order.record(), enough(n));
                assert_eq!(number, if most == 4 { 0 } else { 26 }, "{}", Hex(&order.record()));
            }
        }
    }
    tally.finish_each(24_000, 5_000, &[0, 26]);
}

/// An edge is taken from a position with exactly five, where no other has as many.
#[test]
fn an_edge_less_is_planned() {
    let mut random = Random::new(0x5EED_1A02);
    let mut tally = Tally::new("sides, an edge less");
    let mut planned = 0;
    while planned < 1_000 {
        let n = random.between(6, 12);
        let floor = floors::with_sides(&mut random, n, 5);
        let neighbours = floor.neighbours();
        let many: Vec<usize> = (0..n).filter(|&p| neighbours[p].count_ones() >= 5).collect();
        if many.len() > 1 {
            continue;
        }
        let m = random.between(0, n - 2);
        let mut order = orders::order_on(&mut random, &floor, m);
        assert_eq!(judge(&mut tally, &order.record(), enough(n)), 26);
        let at_it = |&&(a, b): &&(u8, u8)| usize::from(a) == many[0] || usize::from(b) == many[0];
        let taken = *order.edges.iter().filter(at_it).nth(random.below(5)).expect("one of five edges");
        order.edges.retain(|&edge| edge != taken);
        if judge(&mut tally, &order.record(), enough(n)) == 0 {
            planned += 1;
        }
    }
    tally.close(2_000);
}

/// Floors on which 26 applies together with 20, with 21, with 23, with each start its goal, and alone.
#[test]
fn among_the_other_numbers() {
    let mut random = Random::new(0x5EED_1A03);
    let mut tally = Tally::new("sides, among the other numbers");
    let (mut with_20, mut with_21, mut with_23, mut still, mut alone) = (0, 0, 0, 0, 0);
    for _ in 0..40_000 {
        let n = random.between(6, 20);
        let mut floor = match random.below(3) {
            0 => floors::bi_connected(&mut random, n),
            1 => floors::floor_of_shape(&mut random, floors::Shape::Star),
            _ => {
                let sides = random.between(5, 5 + (n - 6).min(3));
                floors::with_sides(&mut random, n, sides)
            }
        };
        // the floor falls apart where the edges of one position are taken away, but for one
        if random.one_in(4) {
            let hung = random.below(floor.n) as u8;
            let mut first = true;
            floor.edges.retain(|&(a, b)| {
                let keep = (a != hung && b != hung) || first;
                first &= a != hung && b != hung;
                keep
            });
        }
        let n = floor.n;
        let m = if random.one_in(4) { n - random.below(2).min(n) } else { random.between(0, n) };
        let order = orders::order_on(&mut random, &floor, m);
        let order = if random.one_in(4) { standing_still(&order) } else { order };
        let length = if random.one_in(3) { random.below(enough(n)) } else { enough(n) };
        let number = judge(&mut tally, &order.record(), length);
        let read = second::order::read(&order.record()).expect("a well-formed order");
        assert_eq!(most_edges(&read.floor), most_sides(&floor), "{}", Hex(&order.record()));
        if most_sides(&floor) < 5 {
            assert_ne!(number, 26, "{}", Hex(&order.record()));
            continue;
        }
        let crowded = m + 2 > n;
        let apart = !is_biconnected(&read.floor);
        let short = length < enough(n);
        let due = match (crowded, apart) {
            (true, _) => 20,
            (_, true) => 21,
            _ => 26,
        };
        assert_eq!(number, due, "{}", Hex(&order.record()));
        with_20 += u32::from(crowded);
        with_21 += u32::from(!crowded && apart);
        with_23 += u32::from(number == 26 && short);
        still += u32::from(number == 26 && order.starts == order.goals);
        alone += u32::from(number == 26 && !short);
    }
    println!("  26 with 20 {with_20}, with 21 {with_21}, with 23 {with_23}, each start its goal {still}, alone {alone}");
    assert!([with_20, with_21, with_23, still, alone].iter().all(|&met| met >= 1_000));
    tally.finish_each(40_000, 100, &[0, 20, 21, 23, 24, 26]);
}

/// "Stored orders and plans for such floors are still read, checked and timetabled": and shortened and converted.
#[test]
fn stored_orders_and_plans_are_taken_as_before() {
    let mut random = Random::new(0x5EED_1A04);
    let mut tally = Tally::new("sides, stored orders and plans");
    for _ in 0..3_000 {
        let sides = random.between(5, 9);
        let n = random.between(sides + 1, 40);
        let floor = floors::with_sides(&mut random, n, sides);
        let m = random.between(1, n - 2);
        let k = random.between(0, 60);
        let sample = plans::sound_on(&mut random, floor, m, k);
        let order = sample.order.record();
        assert_eq!(judge(&mut tally, &order, 0), 26);
        let read = packed::nothing(second::order::check(&order));
        tally.compare(proved::order_check(&order), read, &[&order]);
        for edition in EDITIONS {
            let plan = sample.plan(edition).record();
            let accepted = packed::count(second::plan::check(&order, &plan));
            assert_eq!(accepted, packed::count(Ok(k as u32)));
            tally.compare(proved::plan_check(&order, &plan), accepted, &[&order, &plan]);

            let (mut made, mut other) = (vec![0xAA; 3 * k + 3], vec![0xAA; 3 * k + 3]);
            let steps = packed::count(second::making::make(&order, &plan, &mut other));
            tally.compare(proved::timetable_make(&order, &plan, &mut made), steps, &[&order, &plan]);
            assert!(made == other, "{}| {}", Hex(&order), Hex(&plan));
            let end = second::timetable::length(&made).expect("a timetable was written");
            let checked = packed::steps_and_moves(second::timetable::check(&order, &made[..end]));
            tally.compare(proved::timetable_check(&order, &made[..end]), checked, &[&order, &made[..end]]);

            let (mut left, mut other) = (vec![0xAA; plan.len()], vec![0xAA; plan.len()]);
            let shortened = packed::count(second::shortening::shorten(&order, &plan, &mut other));
            tally.compare(proved::plan_shorten(&order, &plan, &mut left), shortened, &[&order, &plan]);
            assert!(left == other, "{}| {}", Hex(&order), Hex(&plan));

            let length = edition.other().length(k);
            let (mut converted, mut other) = (vec![0xAA; length], vec![0xAA; length]);
            let answer = packed::count(second::converting::convert(&order, &plan, &mut other));
            tally.compare(proved::plan_convert(&order, &plan, &mut converted), answer, &[&order, &plan]);
            assert!(converted == other, "{}| {}", Hex(&order), Hex(&plan));
        }
    }
    tally.finish(36_000, &[0, 26]);
}

/// How many random orders on bi-connected floors of any shape the planner took before this request and takes now, and
/// how many it takes of those on floors of at most four neighbours to a position, which stand in for them.
#[test]
fn how_many_are_planned() {
    let mut random = Random::new(0x5EED_1A05);
    let (mut before, mut now, mut four_sided) = (0, 0, 0);
    for _ in 0..20_000 {
        let n = random.between(4, 20);
        let m = random.between(0, n - 2);
        let floor = floors::bi_connected(&mut random, n);
        let answer = second::floor::check(&orders::order_on(&mut random, &floor, m).record());
        now += u32::from(answer.is_ok());
        before += u32::from(answer.is_ok() || answer.is_err_and(|refusal| refusal.number == 26));
        let floor = floors::four_sided(&mut random, n);
        four_sided +=
            u32::from(second::floor::check(&orders::order_on(&mut random, &floor, m).record()).is_ok());
    }
    println!("sides: of 20000 orders on bi-connected floors {before} were planned before and {now} are now");
    println!("  of 20000 on floors of at most four neighbours to a position {four_sided} are planned");
    assert!(four_sided >= 19_000 && now < before);
}
