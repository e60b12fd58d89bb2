//! Ring floors: request (d). Whether a plan exists is decided by searching all arrangements that moves lead to.

use compare::floors::Floor;
use compare::orders;
use compare::packed;
use compare::proved;
use compare::random::Random;
use compare::rings::{goals_in_order, least_moves, random_ring, ring};
use compare::tally::{Hex, Tally};
use compare::write::Order;
use std::collections::HashMap;

/// The buffer length that is enough for n positions.
fn enough(n: usize) -> usize {
    18 * n.pow(3) + 3
}

/// Plans the order and judges what came of it: the moves, or the number that refuses it.
fn judge(tally: &mut Tally, order: &[u8], buffer: &mut [u8]) -> Result<usize, u8> {
    let before = buffer.to_vec();
    let answer = packed::to_count(proved::plan_make(order, buffer));
    if let Some(fault) = second::planning::fault(order, &before, buffer, answer) {
        panic!("{fault}, on {}", Hex(order));
    }
    tally.count(packed::count(answer));
    answer.map(|moves| moves as usize).map_err(|refusal| refusal.number)
}

/// How many moves lead from the starts to each arrangement that moves lead to at all.
fn reached(floor: &Floor, starts: &[u8]) -> HashMap<Vec<u8>, usize> {
    let neighbours = floor.neighbours();
    let mut reached = HashMap::from([(starts.to_vec(), 0)]);
    let mut fresh = vec![starts.to_vec()];
    let mut moves = 0;
    while !fresh.is_empty() {
        moves += 1;
        let mut next = Vec::new();
        for arrangement in fresh {
            let held = arrangement.iter().fold(0u64, |set, &position| set | 1 << position);
            for rack in 0..arrangement.len() {
                let free = neighbours[usize::from(arrangement[rack])] & !held;
                for to in (0..64).filter(|to| free >> to & 1 == 1) {
                    let mut moved = arrangement.clone();
                    moved[rack] = to;
                    if !reached.contains_key(&moved) {
                        reached.insert(moved.clone(), moves);
                        next.push(moved);
                    }
                }
            }
        }
        fresh = next;
    }
    reached
}

/// Every way to put m racks on n positions.
fn arrangements(n: usize, m: usize) -> Vec<Vec<u8>> {
    if m == 0 {
        return vec![Vec::new()];
    }
    let fewer = arrangements(n, m - 1);
    let with = |rest: &Vec<u8>| -> Vec<Vec<u8>> {
        let free = (0..n as u8).filter(|position| !rest.contains(position));
        free.map(|position| [rest.as_slice(), &[position]].concat()).collect()
    };
    fewer.iter().flat_map(with).collect()
}

fn record(floor: &Floor, starts: &[u8], goals: &[u8]) -> Vec<u8> {
    let (starts, goals) = (starts.to_vec(), goals.to_vec());
    Order { n: floor.n, edges: floor.edges.clone(), starts, goals, spare: 0, pad: 0 }.record()
}

/// Every order of m racks on a ring, from half of its starts on each of two threads.
fn judge_every_order(tally: &mut Tally, floor: &Floor, m: usize) {
    let all = arrangements(floor.n, m);
    let (some, others) = all.split_at(all.len() / 2);
    std::thread::scope(|scope| {
        let aside = scope.spawn(|| {
            let mut tally = Tally::new("rings, every order from half of the starts");
            judge_every_goal(&mut tally, floor, some, &all);
            tally
        });
        judge_every_goal(tally, floor, others, &all);
        tally.add(&aside.join().expect("no order failed"));
    });
}

/// Every order from some starts to any goals on a ring: what is refused is refused with the number that the search
/// gives, and leaves the buffer alone; every plan is judged.
fn judge_every_goal(tally: &mut Tally, floor: &Floor, some: &[Vec<u8>], all: &[Vec<u8>]) {
    let m = all[0].len();
    let nowhere = vec![0; m];
    let to: Vec<Vec<u8>> = all.iter().map(|goals| record(floor, &nowhere, goals)).collect();
    let (mut buffer, mut untouched) = (vec![0x55; enough(floor.n)], vec![0x55; enough(floor.n)]);
    for starts in some {
        let ways = reached(floor, starts);
        let from = record(floor, starts, &nowhere);
        for (goals, to) in all.iter().zip(&to) {
            // a position is a field of its own, and 0 where a rack is nowhere
            let order: Vec<u8> = from.iter().zip(to).map(|(from, to)| from | to).collect();
            match ways.get(goals) {
                Some(&moves) if m < floor.n => assert_eq!(judge(tally, &order, &mut buffer), Ok(moves)),
                _ => {
                    let number = if m == floor.n { 20 } else { 24 };
                    let answer = proved::plan_make(&order, &mut untouched);
                    assert_eq!(answer, packed::refused(number, 0), "{starts:?} to {goals:?}");
                    tally.count(answer);
                }
            }
        }
    }
    assert!(untouched.iter().all(|&byte| byte == 0x55), "refused, and the buffer changed");
}

/// Every order on the rings of 3 to 7 positions is planned exactly where moves lead to its goals, with as few moves as
/// any plan has; 24 exactly where none do; 20 on a full ring.
#[test]
fn every_order_on_small_rings() {
    let mut tally = Tally::new("rings, every order on small ones");
    for n in 3..=7 {
        let floor = ring(&(0..n).collect::<Vec<_>>());
        for m in 0..=n {
            judge_every_order(&mut tally, &floor, m);
        }
    }
    tally.finish(57_000_000, &[0, 20, 24]);
}

#[test]
fn random_rings_with_the_same_order() {
    let mut random = Random::new(0x5EED_D001);
    let mut tally = Tally::new("rings, the same order");
    for round in 0..3_000 {
        let n = if round % 10 == 0 { 64 } else { random.between(3, 64) };
        let (floor, positions) = random_ring(&mut random, n);
        let m = if random.one_in(2) { n - 1 } else { random.between(0, n - 1) };
        let mut order = orders::order_on(&mut random, &floor, m);
        order.goals = goals_in_order(&mut random, &positions, &order.starts);
        let moves = judge(&mut tally, &order.record(), &mut random.bytes(enough(n)));
        assert_eq!(moves, Ok(least_moves(&positions, &order.starts, &order.goals)));
    }
    tally.finish(3_000, &[0]);
}

#[test]
fn random_rings_with_any_order() {
    let mut random = Random::new(0x5EED_D002);
    let mut tally = Tally::new("rings, any order");
    for _ in 0..20_000 {
        let n = random.between(3, 64);
        let (floor, _) = random_ring(&mut random, n);
        let m = match random.below(8) {
            0 => n,
            1..=4 => random.between(0, 4.min(n)),
            _ => random.between(0, n),
        };
        let order = orders::order_on(&mut random, &floor, m).record();
        // 24 is judged before 23
        let length = if random.one_in(4) { random.below(enough(n)) } else { enough(n) };
        let _ = judge(&mut tally, &order, &mut vec![0xAA; length]);
    }
    tally.finish(20_000, &[0, 20, 23, 24]);
}
