//! The plans of BIBOX, judged by the second implementation's plan checker.

use compare::floors::{self, Floor};
use compare::orders;
use compare::random::Random;
use compare::tally::Hex;
use compare::write::{Order, Plan};
use published::agents::Agents;
use published::bibox;
use published::goal::disjoint_paths;
use published::operation::{Choice, World};
use second::breakdown::{members, set_of};

/// Plans by both choices; the checker has to accept.
fn accepted(order: &Order) {
    let record = order.record();
    let read = second::order::read(&record).expect("the order is sound");
    for choice in [Choice::Nearest, Choice::First] {
        let moves = bibox::plan(&read, choice).unwrap_or_else(|| panic!("no plan for {}", Hex(&record)));
        let count = moves.len() as u32;
        let plan = Plan::of_moves(&moves).record();
        assert_eq!(second::plan::check(&record, &plan), Ok(count), "{choice:?}, {}", Hex(&record));
    }
}

/// A bi-connected floor that is not a ring.
fn random_floor(random: &mut Random, n: usize) -> Floor {
    loop {
        let floor = floors::bi_connected(random, n);
        if floor.edges.len() > n {
            return floor;
        }
    }
}

#[test]
fn random_orders_with_two_vacancies() {
    let mut random = Random::new(0xB1B0_0001);
    for _ in 0..10_000 {
        let n = random.between(4, 16);
        let floor = random_floor(&mut random, n);
        accepted(&orders::order_on(&mut random, &floor, n - 2));
    }
}

#[test]
fn random_orders_with_stand_ins() {
    let mut random = Random::new(0xB1B0_0002);
    for _ in 0..10_000 {
        let n = random.between(4, 16);
        let floor = random_floor(&mut random, n);
        let m = random.between(0, n - 2);
        accepted(&orders::order_on(&mut random, &floor, m));
    }
}

/// Two positions with three ways between them: long cycles, and a ring that is not a square.
#[test]
fn long_handles() {
    let mut random = Random::new(0xB1B0_0003);
    for _ in 0..2_000 {
        let inner = [random.between(1, 4), random.between(1, 4), random.between(0, 4)];
        let n = 2 + inner.iter().sum::<usize>();
        let mut edges = Vec::new();
        let mut first = 2;
        for count in inner {
            let way: Vec<usize> = [0].into_iter().chain(first..first + count).chain([1]).collect();
            edges.extend(way.windows(2).map(|two| (two[0], two[1])));
            first += count;
        }
        let m = random.between(0, n - 2);
        accepted(&orders::order_on(&mut random, &Floor::new(n, edges), m));
    }
}

#[test]
fn grids() {
    let mut random = Random::new(0xB1B0_0004);
    for rows in 2..=8 {
        for columns in rows.max(3)..=8 {
            let floor = floors::grid(rows, columns);
            for vacancies in [2, 3, floor.n / 2, floor.n] {
                accepted(&orders::order_on(&mut random, &floor, floor.n - vacancies));
            }
        }
    }
}

#[test]
fn every_order_of_two_racks_on_every_floor_of_four_positions() {
    let mut planned = 0;
    let places: Vec<[u8; 2]> =
        (0..4).flat_map(|a| (0..4).filter(move |&b| a != b).map(move |b| [a, b])).collect();
    for Floor { n, edges } in floors::every_floor(4) {
        for (starts, goals) in
            places.iter().flat_map(|starts| places.iter().map(move |goals| (starts, goals)))
        {
            let (starts, goals) = (starts.to_vec(), goals.to_vec());
            let order = Order { n, edges: edges.clone(), starts, goals, spare: 0, pad: 0 };
            // a ring has no handles: BIBOX is not for it
            match second::floor::check(&order.record()) {
                Ok(()) if edges.len() > n => {
                    accepted(&order);
                    planned += 1;
                }
                _ => refused(&order),
            }
        }
    }
    assert_eq!(planned, 7 * 144); // the square with one diagonal, six times, and all six edges
}

fn refused(order: &Order) {
    let read = second::order::read(&order.record()).expect("the order is sound");
    assert_eq!(bibox::plan(&read, Choice::Nearest), None);
}

#[test]
fn one_vacancy_is_refused() {
    let mut random = Random::new(0xB1B0_0005);
    refused(&orders::order_on(&mut random, &floors::grid(3, 3), 8));
}

/// "it remains on its place after the rotation is finished"
#[test]
fn a_rotation_keeps_its_vacancy_and_passes_it_over() {
    let order = orders::order_on(&mut Random::new(1), &floors::grid(2, 2), 0).record();
    let floor = second::order::read(&order).expect("the order is sound").floor;
    let cycle = [0, 1, 3, 2];
    let agents = Agents { racks: 3, starts: vec![1, 3, 2], goals: vec![1, 3, 2] };
    let mut world = World::new(&floor, &agents, Choice::Nearest);
    world.rotate_forward(&cycle, 0);
    assert_eq!(cycle.map(|position| world.agent_at(position)), [0, 3, 1, 2]);
    world.rotate_backward(&cycle, 0);
    assert_eq!(cycle.map(|position| world.agent_at(position)), [0, 1, 2, 3]);
    assert_eq!(world.into_moves().len(), 2 * cycle.len());
}

/// Lemma 2, on random floors.
#[test]
fn disjoint_paths_lead_from_one_pair_to_the_other() {
    let mut random = Random::new(0xB1B0_0006);
    for _ in 0..5_000 {
        let n = random.between(4, 16);
        let floor = random_floor(&mut random, n);
        let order = orders::order_on(&mut random, &floor, 0).record();
        let floor = second::order::read(&order).expect("the order is sound").floor;
        let pair = |random: &mut Random| set_of(&random.distinct(2, n));
        let (from, to) = (pair(&mut random), pair(&mut random));
        let paths = disjoint_paths(&floor, from, to);
        let starts: Vec<usize> = paths.iter().map(|path| usize::from(path[0])).collect();
        let ends: Vec<u8> = paths.iter().map(|path| path[path.len() - 1]).collect();
        assert_eq!(starts, members(from).collect::<Vec<usize>>());
        assert_eq!(set_of(&ends), to);
        let joined = |two: &[u8]| floor.joined(usize::from(two[0]), usize::from(two[1]));
        assert!(paths.iter().all(|path| path.windows(2).all(joined)));
        let positions = paths.concat();
        assert_eq!(set_of(&positions).count_ones() as usize, positions.len());
    }
}
