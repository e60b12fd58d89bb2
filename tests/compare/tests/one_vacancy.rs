//! One vacancy: the proved judgement against the second one, and against searches of every arrangement.

use std::collections::HashMap;

use compare::floors::{self, Floor, SHAPES};
use compare::orders;
use compare::packed;
use compare::proved;
use compare::racks::Racks;
use compare::random::Random;
use compare::tally::{Hex, Tally};
use compare::write::Order;
use second::floor::{is_biconnected, is_ring};

const NOT_JUDGED: u64 = 0;
const IMPOSSIBLE: u64 = 1 << 8;

/// Compares, and gives the answer.
#[track_caller]
fn compare(tally: &mut Tally, order: &[u8]) -> u64 {
    let expected = packed::judgement(second::vacancy::check(order));
    let answer = proved::one_vacancy(order);
    tally.compare(answer, expected, &[order]);
    answer
}

fn order(floor: &Floor, starts: &[u8], goals: &[u8]) -> Order {
    let Floor { n, edges } = floor.clone();
    Order { n, edges, starts: starts.to_vec(), goals: goals.to_vec(), spare: 0, pad: 0 }
}

/// The floor as the second implementation has it.
fn second_floor(floor: &Floor) -> second::order::Floor {
    second::order::Floor { n: floor.n, e: floor.edges.len(), neighbours: floor.neighbours() }
}

/// Every arrangement of n - 1 racks on n positions, rack 1's place first.
fn every_arrangement(n: usize) -> Vec<Vec<u8>> {
    let mut all = vec![Vec::new()];
    for _ in 1..n {
        let longer = |places: &Vec<u8>| {
            let free: Vec<u8> = (0..n as u8).filter(|at| !places.contains(at)).collect();
            free.into_iter().map(|at| [&places[..], &[at]].concat()).collect::<Vec<_>>()
        };
        all = all.iter().flat_map(longer).collect();
    }
    all
}

/// Which arrangements legal moves lead to one another: two with the same number, and no others.
fn classes(floor: &Floor, arrangements: &[Vec<u8>]) -> Vec<usize> {
    let number: HashMap<&[u8], usize> =
        arrangements.iter().enumerate().map(|(index, places)| (&places[..], index)).collect();
    let mut class = vec![usize::MAX; arrangements.len()];
    for first in 0..arrangements.len() {
        if class[first] != usize::MAX {
            continue;
        }
        class[first] = first;
        let mut fresh = vec![first];
        while let Some(index) = fresh.pop() {
            let racks = Racks::new(floor, &arrangements[index]);
            let entered = racks.vacant().trailing_zeros() as u8;
            for left in (0..floor.n as u8).filter(|&at| racks.joined(entered) >> at & 1 == 1) {
                let mut moved = racks.clone();
                moved.make(&[(left, entered)]);
                let next = number[&moved.places()[..]];
                if class[next] == usize::MAX {
                    class[next] = first;
                    fresh.push(next);
                }
            }
        }
    }
    class
}

/// Every order with one vacancy on the floor: `impossible` is never said where moves lead to the goal. Where there are
/// two colours and the floor is no ring, it is said wherever none do: there half of the arrangements are reached. How
/// often it was said.
fn search(tally: &mut Tally, floor: &Floor) -> u64 {
    let arrangements = every_arrangement(floor.n);
    let class = classes(floor, &arrangements);
    let mut said = 0;
    let mut silent = false;
    for (start, starts) in arrangements.iter().enumerate() {
        for (goal, goals) in arrangements.iter().enumerate() {
            let record = order(floor, starts, goals).record();
            let impossible = compare(tally, &record) == IMPOSSIBLE;
            assert!(!(impossible && class[start] == class[goal]), "a plan exists: {}", Hex(&record));
            said += u64::from(impossible);
            silent |= !impossible && class[start] != class[goal];
        }
    }
    let ring = is_ring(&second_floor(floor));
    assert!(said == 0 || !silent || ring, "impossible is not always said: {:?}", floor.edges);
    said
}

#[test]
fn every_order_on_every_floor_of_up_to_five_positions() {
    let mut tally = Tally::new("one_vacancy, every order on floors of up to five positions");
    let mut said = 0;
    for n in 3..=5 {
        for floor in floors::every_floor(n).filter(|floor| is_biconnected(&second_floor(floor))) {
            said += search(&mut tally, &floor);
        }
    }
    tally.finish(3_000_000, &[0]);
    // three rings of four positions, and ten floors of two and three positions with all edges between them
    assert_eq!(said, 3 * 24 * 12 + 10 * 120 * 60);
}

#[test]
fn every_order_on_random_floors_of_six_positions() {
    let mut random = Random::new(0x5EED_B00A);
    let mut tally = Tally::new("one_vacancy, every order on floors of six positions");
    // three with two colours, the second a ring, and three of any kind
    let mut chosen = vec![floors::grid(2, 3), Floor::new(6, (0..6).map(|at| (at, (at + 1) % 6)))];
    chosen.push(Floor::new(6, (0..3).flat_map(|a| (3..6).map(move |b| (a, b)))));
    chosen.extend((0..3).map(|_| floors::bi_connected(&mut random, 6)));
    let said: Vec<u64> = chosen.iter().map(|floor| search(&mut tally, floor)).collect();
    tally.finish(3_000_000, &[0]);
    // with two colours for half of the goals, as on the first three, else for none; the random floors are of both kinds
    let half = 720 * 360;
    assert_eq!(said[..3], [half; 3]);
    assert!(said[3..].contains(&half) && said[3..].contains(&0), "impossible was said so often: {said:?}");
}

/// Rings of an even number of positions, and grids: all have two colours.
fn two_coloured() -> Vec<Floor> {
    let rings = (4..=64).step_by(2).map(|n| Floor::new(n, (0..n).map(|at| (at, (at + 1) % n))));
    let grids = (2..=32).flat_map(|rows| (2..=64 / rows).map(move |columns| floors::grid(rows, columns)));
    rings.chain(grids).collect()
}

#[test]
fn orders_made_by_moves_and_the_same_with_two_racks_exchanged() {
    let mut random = Random::new(0x5EED_B002);
    let mut tally = Tally::new("one_vacancy, orders made by moves");
    for floor in two_coloured() {
        for _ in 0..60 {
            let starts = random.distinct(floor.n - 1, floor.n);
            let mut racks = Racks::new(&floor, &starts);
            for _ in 0..random.below(300) {
                let step = racks.random_move(&mut random).expect("a ring or a grid");
                racks.make(&[step]);
            }
            let mut goals = racks.places();
            let made = order(&floor, &starts, &goals).record();
            assert_eq!(compare(&mut tally, &made), NOT_JUDGED, "made by moves: {}", Hex(&made));
            let two = random.distinct(2, goals.len());
            goals.swap(usize::from(two[0]), usize::from(two[1]));
            let exchanged = order(&floor, &starts, &goals).record();
            assert_eq!(compare(&mut tally, &exchanged), IMPOSSIBLE, "two exchanged: {}", Hex(&exchanged));
        }
    }
    tally.finish(15_000, &[0]);
}

#[test]
fn floors_of_every_shape() {
    let mut random = Random::new(0x5EED_B003);
    let mut tally = Tally::new("one_vacancy, floors of every shape");
    for _ in 0..10_000 {
        for shape in SHAPES {
            let floor = floors::floor_of_shape(&mut random, shape);
            let m = if random.one_in(4) { random.between(0, floor.n) } else { floor.n - 1 };
            let order = orders::order_on(&mut random, &floor, m);
            let answer = compare(&mut tally, &order.record());
            // "29 …; after 14, and then 21"
            assert_eq!(answer == 29, m + 1 != floor.n);
        }
    }
    tally.finish(100_000, &[0, 21, 29]);
}

#[test]
fn damaged_orders() {
    let mut random = Random::new(0x5EED_B004);
    let mut tally = Tally::new("one_vacancy, damaged orders");
    for _ in 0..100_000 {
        let order = orders::random_order(&mut random);
        let damage = orders::random_damage(&mut random, &order);
        let record = orders::damaged(&mut random, &order, damage);
        let number = second::order::check(&record).map_or_else(|refusal| refusal.number, |_| 0);
        if (10..20).contains(&number) {
            compare(&mut tally, &record);
        }
    }
    tally.finish(80_000, &[10, 11, 12, 13, 14]);
}

#[test]
fn the_known_puzzle() {
    let mut tally = Tally::new("one_vacancy, the known puzzle");
    let floor = floors::grid(4, 4);
    let starts: Vec<u8> = (0..15).collect();
    let mut answer = |goals: &[u8]| compare(&mut tally, &order(&floor, &starts, goals).record());
    assert_eq!(answer(&starts), NOT_JUDGED);
    let mut goals = starts.clone();
    goals.swap(13, 14);
    assert_eq!(answer(&goals), IMPOSSIBLE);
    // the vacancy one place on, with one move made and with none
    goals[14] = 15;
    goals[13] = 13;
    assert_eq!(answer(&goals), NOT_JUDGED);
    goals.swap(0, 1);
    assert_eq!(answer(&goals), IMPOSSIBLE);
    assert_eq!(tally.cases(), 4);
}
