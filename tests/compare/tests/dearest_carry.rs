//! The dearest single carry: request (m). The proved answer and every byte of the buffer against the second
//! implementation, which searches from each position in turn; on small floors against all plans of all pairs.

use compare::floors::{self, Floor, SHAPES};
use compare::orders::{self, DAMAGES};
use compare::packed;
use compare::proved;
use compare::random::Random;
use compare::tally::{each_met, Hex, Tally};
use compare::write::Order;
use second::answer::Answer;
use second::carry::{self, Carry};
use second::floor::{all_positions, is_connected};

/// How long an edition-two plan of k moves is.
fn plan_length(k: usize) -> usize {
    3 + (18 * k).div_ceil(8)
}

/// The buffer that is enough for a floor of n positions.
fn enough(n: usize) -> usize {
    plan_length(n - 1)
}

/// Asks both with equal buffers, and holds answers and buffers to each other. An accepted plan is judged by both plan
/// checkers, for the order of the one rack on the same floor; a refusal leaves the buffer as it was.
#[track_caller]
fn compare(tally: &mut Tally, order: &[u8], before: Vec<u8>) -> Answer<Carry> {
    let (mut buffer, mut other) = (before.clone(), before.clone());
    let answer = carry::find(order, &mut other);
    tally.compare(proved::dearest_carry(order, &mut buffer), packed::carry(answer), &[order]);
    assert!(buffer == other, "{} and not {}, on {}", Hex(&buffer), Hex(&other), Hex(order));
    match answer {
        Err(_) => assert!(buffer == before, "refused, and the buffer changed: {}", Hex(order)),
        Ok(Carry { start, goal, moves }) => {
            let (plan, behind) = buffer.split_at(plan_length(moves));
            assert!(behind == &before[plan.len()..], "a byte behind the record changed: {}", Hex(order));
            let one = one_rack(order, start, goal);
            let accepted = packed::count(Ok(moves as u32));
            assert_eq!(packed::count(second::plan::check(&one, plan)), accepted, "{}", Hex(order));
            assert_eq!(proved::plan_check(&one, plan), accepted, "{}", Hex(order));
            // "rack number minus 1": the one rack is rack 1
            let fields = (0..moves).map(|index| second::record::triple(&plan[3..], index) & 63);
            assert!(fields.into_iter().all(|field| field == 0));
        }
    }
    answer
}

/// The record of the order of one rack on the floor of another order.
fn one_rack(order: &[u8], start: usize, goal: usize) -> Vec<u8> {
    let edges = (0..usize::from(order[0] & 1) << 7 | usize::from(order[1] >> 1)).map(|index| {
        let (a, b) = second::record::positions(second::record::pair(&order[3..], index));
        (a as u8, b as u8)
    });
    let (starts, goals) = (vec![start as u8], vec![goal as u8]);
    Order { n: usize::from(order[0] >> 1), edges: edges.collect(), starts, goals, spare: 0, pad: 0 }.record()
}

/// A well-formed order on the floor, with any number of racks.
fn with_any_racks(random: &mut Random, floor: &Floor) -> Vec<u8> {
    let m = orders::random_rack_count(random, floor.n);
    orders::order_on(random, floor, m).record()
}

/// The floor as the second implementation has it.
fn read(order: &[u8]) -> second::order::Floor {
    second::order::read(order).expect("a well-formed order").floor
}

/// How many pairs are as dear as the dearest, and whether another shortest plan leads from its start to its goal.
fn ties(order: &[u8], found: Carry) -> (usize, bool) {
    let floor = read(order);
    let distances = carry::distances(&floor);
    let pairs = distances.iter().flatten().filter(|&&moves| moves == found.moves).count();
    let left = |at: usize| distances[at][found.goal];
    let nearer = |at: usize, next: usize| floor.joined(at, next) && left(next) + 1 == left(at);
    let on_way = |at: usize| distances[found.start][at] + left(at) == found.moves;
    let forks =
        (0..floor.n).any(|at| on_way(at) && (0..floor.n).filter(|&next| nearer(at, next)).count() > 1);
    (pairs, forks)
}

#[test]
fn floors_of_every_shape_up_to_64_positions() {
    let mut random = Random::new(0x5EED_6D01);
    let mut tally = Tally::new("dearest_carry, every shape");
    let mut met = [0; SHAPES.len()];
    let (mut largest, mut longest) = (0, 0);
    for _ in 0..160_000 {
        let shape = random.below(SHAPES.len());
        let floor = floors::floor_of_shape(&mut random, SHAPES[shape]);
        let order = with_any_racks(&mut random, &floor);
        let enough = enough(floor.n);
        let length = match random.below(8) {
            0 => enough - 1,
            1 => random.below(enough),
            2 => enough + random.below(40),
            _ => enough,
        };
        let before = random.bytes(length);
        let connected = is_connected(&read(&order), all_positions(floor.n));
        let due = match (connected, length < enough) {
            (false, _) => Some(27),
            (true, true) => Some(28),
            (true, false) => None,
        };
        let answer = compare(&mut tally, &order, before);
        assert_eq!(answer.err().map(|refusal| refusal.number), due, "{}", Hex(&order));
        met[shape] += 1;
        largest += u64::from(floor.n == 64 && answer.is_ok());
        longest = longest.max(answer.map_or(0, |found| found.moves));
    }
    each_met(&SHAPES, &met);
    println!("  of 64 positions {largest}, the longest plan has {longest} moves");
    assert!(largest >= 5_000 && longest == 63);
    tally.finish(160_000, &[0, 27, 28]);
}

/// Floors on which many pairs are as dear and many plans as short, numbered at random.
fn with_ties(random: &mut Random) -> Floor {
    let edges: Vec<(usize, usize)>;
    let n;
    match random.below(6) {
        0 => {
            n = random.between(3, 64);
            edges = (0..n).map(|at| (at, (at + 1) % n)).collect();
        }
        1 => {
            let floor = floors::grid(random.between(1, 8), random.between(1, 8));
            n = floor.n;
            edges = floor.edges.iter().map(|&(a, b)| (usize::from(a), usize::from(b))).collect();
        }
        2 => {
            n = random.between(1, 22);
            edges = floors::all_pairs(n);
        }
        3 => {
            // each of some positions joined to each of the others
            let few = random.between(1, 15);
            n = few + random.between(1, 255 / few).min(64 - few);
            edges = (0..few).flat_map(|a| (few..n).map(move |b| (a, b))).collect();
        }
        4 => {
            // positions joined where their numbers differ in one bit
            n = 1 << random.between(1, 6);
            edges = (0..n)
                .flat_map(|a| (0..6).map(move |bit| (a, a ^ 1 << bit)))
                .filter(|&(a, b)| a < b && b < n)
                .collect();
        }
        _ => {
            // a tree of which each position has two more below it
            n = random.between(2, 64);
            edges = (1..n).map(|at| ((at - 1) / 2, at)).collect();
        }
    }
    let names = if random.one_in(3) { (0..n as u8).collect() } else { random.distinct(n, n) };
    Floor::new(n, edges.into_iter().map(|(a, b)| (usize::from(names[a]), usize::from(names[b]))))
}

#[test]
fn ties_on_purpose() {
    let mut random = Random::new(0x5EED_6D02);
    let mut tally = Tally::new("dearest_carry, ties");
    let (mut pairs_tied, mut plans_tied, mut starts_tied) = (0, 0, 0);
    for _ in 0..30_000 {
        let floor = with_ties(&mut random);
        let order = with_any_racks(&mut random, &floor);
        let length = enough(floor.n) + random.below(3);
        let before = random.bytes(length);
        let found = compare(&mut tally, &order, before).expect("connected");
        let (pairs, forks) = ties(&order, found);
        // a pair and the same pair turned round are two
        pairs_tied += u32::from(pairs > 2);
        plans_tied += u32::from(forks);
        starts_tied += u32::from(found.start > 0);
    }
    println!(
        "  several pairs on {pairs_tied}, several plans on {plans_tied}, no start at 0 on {starts_tied}"
    );
    assert!(pairs_tied >= 15_000 && plans_tied >= 10_000 && starts_tied >= 3_000);
    tally.finish(30_000, &[0]);
}

/// On every floor of up to five positions, the pair and the plan by all pairs and all shortest plans.
#[test]
fn every_floor_of_up_to_five_positions() {
    let mut random = Random::new(0x5EED_6D03);
    let mut tally = Tally::new("dearest_carry, every small floor");
    for n in 1..=5 {
        for floor in floors::every_floor(n) {
            let order = with_any_racks(&mut random, &floor);
            let before = random.bytes(enough(n) + 2);
            let mut buffer = before.clone();
            let Ok(found) = compare(&mut tally, &order, before) else { continue };
            let read = read(&order);
            let shortest = |start, goal| carry::shortest_plans(&read, start, goal);
            let all = (0..n).flat_map(|start| (0..n).map(move |goal| (start, goal)));
            // the last of several that are as long is the first one when they are read backwards
            let dearest =
                all.rev().max_by_key(|&(start, goal)| shortest(start, goal)[0].len()).expect("a pair");
            assert_eq!((found.start, found.goal), dearest, "{}", Hex(&order));
            let entered =
                |plan: &carry::Moves| plan.iter().map(|&(_, entered)| entered).collect::<Vec<usize>>();
            let due = shortest(found.start, found.goal).into_iter().min_by_key(entered).expect("a plan");
            proved::dearest_carry(&order, &mut buffer);
            let written = second::plan::read(&buffer[..plan_length(found.moves)]).expect("a plan");
            let moves: Vec<(usize, usize)> = written.pairs().map(second::record::positions).collect();
            assert_eq!(moves, due, "{}", Hex(&order));
        }
    }
    tally.finish_each(1_099, 300, &[0, 27]);
}

/// 28 goes by n − 1 moves, though the plan is shorter: a star's has two, however many positions it has. And 27 comes
/// before 28.
#[test]
fn a_buffer_of_the_exact_byte() {
    let mut random = Random::new(0x5EED_6D04);
    let mut tally = Tally::new("dearest_carry, the exact byte");
    for n in 1..=64 {
        let path = Floor::new(n, (1..n).map(|at| (at - 1, at)));
        let star = Floor::new(n, (1..n).map(|at| (0, at)));
        let tree = Floor::new(n, (1..n).map(|at| (random.below(at), at)).collect::<Vec<_>>());
        for (floor, moves) in [(path, Some(n - 1)), (star, Some(usize::min(n - 1, 2))), (tree, None)] {
            let order = with_any_racks(&mut random, &floor);
            for length in 0..enough(n) {
                let refused = compare(&mut tally, &order, vec![0xAA; length]).expect_err("too short");
                assert_eq!((refused.number, refused.place), (28, 0));
            }
            let found = compare(&mut tally, &order, vec![0xAA; enough(n)]).expect("long enough");
            assert!(moves.is_none_or(|moves| moves == found.moves));
        }
        if n >= 2 {
            // without the edges of the last position
            let apart = Floor::new(n, (1..n - 1).map(|at| (at - 1, at)));
            let order = with_any_racks(&mut random, &apart);
            for length in [0, enough(n) - 1, enough(n), enough(n) + 1] {
                let refused = compare(&mut tally, &order, vec![0xAA; length]).expect_err("not connected");
                assert_eq!((refused.number, refused.place), (27, 0));
            }
        }
    }
    tally.finish_each(10_000, 100, &[0, 27, 28]);
}

#[test]
fn floors_of_one_and_two_positions() {
    let mut tally = Tally::new("dearest_carry, one and two positions");
    let order = |n, edges: &[(u8, u8)], racks: &[u8]| {
        let (starts, goals) = (racks.to_vec(), racks.to_vec());
        Order { n, edges: edges.to_vec(), starts, goals, spare: 0, pad: 0 }.record()
    };
    for racks in [&[][..], &[0]] {
        let one = order(1, &[], racks);
        let found = compare(&mut tally, &one, vec![0xAA; 3]);
        assert_eq!(found, Ok(Carry { start: 0, goal: 0, moves: 0 }));
        let mut buffer = [0xAA; 5];
        assert_eq!(proved::dearest_carry(&one, &mut buffer), 0);
        assert_eq!(buffer, [0x00, 0x00, 0x01, 0xAA, 0xAA]);
        assert_eq!(compare(&mut tally, &one, vec![0xAA; 2]).map_err(|refusal| refusal.number), Err(28));
        let apart = order(2, &[], racks);
        assert_eq!(compare(&mut tally, &apart, vec![0xAA; 6]).map_err(|refusal| refusal.number), Err(27));
        let two = order(2, &[(0, 1)], racks);
        assert_eq!(compare(&mut tally, &two, vec![0xAA; 6]), Ok(Carry { start: 0, goal: 1, moves: 1 }));
        let mut buffer = [0xAA; 7];
        assert_eq!(proved::dearest_carry(&two, &mut buffer), (1 << 16 | 1 << 8) << 8);
        assert_eq!(buffer, [0x00, 0x00, 0x05, 0x00, 0x10, 0x00, 0xAA]);
        assert_eq!(compare(&mut tally, &two, vec![0xAA; 5]).map_err(|refusal| refusal.number), Err(28));
    }
    tally.close(10);
}

/// The order's own racks are set aside, but they are judged: 10 to 14 come first.
#[test]
fn damaged_orders() {
    let mut random = Random::new(0x5EED_6D05);
    let mut tally = Tally::new("dearest_carry, damaged orders");
    let mut met = [0; DAMAGES.len()];
    for _ in 0..60_000 {
        let order = orders::random_order(&mut random);
        let damage = orders::random_damage(&mut random, &order);
        let order = orders::damaged(&mut random, &order, damage);
        let length = random.below(150);
        let before = random.bytes(length);
        let answer = compare(&mut tally, &order, before);
        if let Some(number) = damage.number() {
            assert_eq!(answer.map_err(|refusal| refusal.number), Err(number), "{damage:?}: {}", Hex(&order));
        }
        met[DAMAGES.iter().position(|&one| one == damage).expect("a damage")] += 1;
    }
    each_met(&DAMAGES, &met);
    tally.finish_each(60_000, 100, &[0, 10, 11, 12, 13, 14, 27, 28]);
}

#[test]
fn the_racks_are_set_aside() {
    let mut random = Random::new(0x5EED_6D06);
    let mut tally = Tally::new("dearest_carry, other racks");
    for _ in 0..3_000 {
        let floor = floors::random_floor(&mut random);
        let before = random.bytes(enough(floor.n));
        let none = compare(&mut tally, &orders::order_on(&mut random, &floor, 0).record(), before.clone());
        let full = orders::order_on(&mut random, &floor, floor.n).record();
        assert_eq!(compare(&mut tally, &full, before.clone()), none);
        let any = with_any_racks(&mut random, &floor);
        assert_eq!(compare(&mut tally, &any, before), none);
    }
    tally.finish(9_000, &[0, 27]);
}
