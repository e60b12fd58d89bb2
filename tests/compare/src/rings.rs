//! Ring floors, and orders on them whose racks stand in the same order round the ring at start and goal.

use crate::floors::Floor;
use crate::random::Random;

/// The ring that goes round `positions` in this order.
pub fn ring(positions: &[usize]) -> Floor {
    let next = positions.iter().skip(1).chain(&positions[..1]);
    Floor::new(positions.len(), positions.iter().copied().zip(next.copied()))
}

/// A ring whose positions are numbered in any order round it, and that order.
pub fn random_ring(random: &mut Random, n: usize) -> (Floor, Vec<usize>) {
    let mut positions: Vec<usize> = (0..n).collect();
    random.shuffle(&mut positions);
    (ring(&positions), positions)
}

/// Goals at which the racks stand in the same order round the ring as at the starts.
pub fn goals_in_order(random: &mut Random, positions: &[usize], starts: &[u8]) -> Vec<u8> {
    let mut racks: Vec<usize> = (0..starts.len()).collect();
    racks.sort_by_key(|&rack| place(positions, starts[rack]));
    let turn = random.below(starts.len().max(1));
    racks.rotate_left(turn);
    let mut places: Vec<u8> = random.distinct(starts.len(), positions.len());
    places.sort_unstable();
    let mut goals = vec![0; starts.len()];
    for (&rack, &place) in racks.iter().zip(&places) {
        goals[rack] = positions[usize::from(place)] as u8;
    }
    goals
}

fn place(positions: &[usize], position: u8) -> i64 {
    positions.iter().position(|&at| at == usize::from(position)).expect("a position of the ring") as i64
}

/// How many places each rack goes on, or back, where rack 1 goes round so many laps more, and none passes another.
fn ways(positions: &[usize], starts: &[u8], goals: &[u8], laps: i64) -> Vec<i64> {
    let n = positions.len() as i64;
    let Some((&start, &goal)) = starts.iter().zip(goals).next() else { return Vec::new() };
    let (start, goal) = (place(positions, start), place(positions, goal));
    let on = |from: i64, to: u8| (place(positions, to) - from).rem_euclid(n);
    let way = |(&s, &g): (&u8, &u8)| goal - start + laps * n + on(goal, g) - on(start, s);
    starts.iter().zip(goals).map(way).collect()
}

/// The least sum of the distances that the racks go without passing each other: no plan has fewer moves.
pub fn least_moves(positions: &[usize], starts: &[u8], goals: &[u8]) -> usize {
    let total = |laps| ways(positions, starts, goals, laps).iter().map(|way| way.unsigned_abs()).sum::<u64>();
    (-3..=3).map(total).min().unwrap_or(0) as usize
}

/// The same where all racks go in one sense, the better of the two.
pub fn least_moves_in_one_sense(positions: &[usize], starts: &[u8], goals: &[u8]) -> usize {
    let all = (-3..=3).map(|laps| ways(positions, starts, goals, laps));
    let one_sense = all.filter(|ways| ways.iter().all(|&way| way >= 0) || ways.iter().all(|&way| way <= 0));
    one_sense.map(|ways| ways.iter().map(|way| way.unsigned_abs()).sum::<u64>()).min().unwrap_or(0) as usize
}
