//! Request (m): "The dearest single carry." One rack alone, so that every position but its own is vacant.

use crate::answer::{refuse, Answer};
use crate::floor::{all_positions, is_connected};
use crate::motion::Arrangement;
use crate::order::{self, Floor, Order};
use crate::plan::{self, Edition};

/// "the start and goal", and how many moves the shortest plan between them has.
#[derive(Clone, Copy, PartialEq, Eq, Debug)]
pub struct Carry {
    pub start: usize,
    pub goal: usize,
    pub moves: usize,
}

/// The answer, with the plan at the front of the buffer: the lowest of 10 to 14 that applies, then 27, then 28. "The
/// floor comes as an order that passes 10 to 14; its own racks are set aside."
pub fn find(order: &[u8], buffer: &mut [u8]) -> Answer<Carry> {
    let floor = order::read(order)?.floor;
    // 27: "the floor is not connected"
    if !is_connected(&floor, all_positions(floor.n)) {
        return refuse(27);
    }
    // 28: "the plan buffer cannot hold an edition-two plan of n − 1 moves"
    if buffer.len() < plan::length(Edition::Two, floor.n - 1) {
        return refuse(28);
    }
    let carry = dearest(&floor);
    let mut left = carry.start;
    let moves = way(&floor, carry).into_iter().map(|entered| {
        let pair = (left << 6 | entered) as u16;
        left = entered;
        pair
    });
    plan::write(&one_rack(&floor, carry.start, carry.goal), Edition::Two, moves, buffer);
    Ok(carry)
}

/// The order of one rack from `start` to `goal` on the floor.
pub fn one_rack(floor: &Floor, start: usize, goal: usize) -> Order {
    let (mut starts, mut goals) = ([0; 64], [0; 64]);
    (starts[0], goals[0]) = (start as u8, goal as u8);
    Order { floor: floor.clone(), m: 1, starts, goals }
}

/// The positions that edges join to one of the set.
fn around(floor: &Floor, mut set: u64) -> u64 {
    let mut joined = 0;
    while set != 0 {
        joined |= floor.neighbours[set.trailing_zeros() as usize];
        set &= set - 1;
    }
    joined
}

/// The positions by how many moves they are away from this one, none first.
fn levels(floor: &Floor, from: usize) -> ([u64; 64], usize) {
    let mut levels = [0; 64];
    levels[0] = 1u64 << from;
    let (mut reached, mut count) = (levels[0], 1);
    loop {
        let fresh = around(floor, levels[count - 1]) & !reached;
        if fresh == 0 {
            return (levels, count);
        }
        levels[count] = fresh;
        reached |= fresh;
        count += 1;
    }
}

/// How many moves lead from each position of a connected floor to each other.
pub fn distances(floor: &Floor) -> Vec<Vec<usize>> {
    let from = |start| {
        let (levels, count) = levels(floor, start);
        let moves_to =
            |goal: usize| (0..count).find(|&moves| levels[moves] >> goal & 1 == 1).expect("connected");
        (0..floor.n).map(moves_to).collect()
    };
    (0..floor.n).map(from).collect()
}

/// "find the start and goal whose shortest plan is longest"; "Of several pairs take the lowest start, then the lowest
/// goal". "On a floor of one position the answer is 0 to 0 with no moves."
pub fn dearest(floor: &Floor) -> Carry {
    let mut best = Carry { start: 0, goal: 0, moves: 0 };
    for start in 0..floor.n {
        let (levels, count) = levels(floor, start);
        if count - 1 > best.moves {
            let goal = levels[count - 1].trailing_zeros() as usize;
            best = Carry { start, goal, moves: count - 1 };
        }
    }
    best
}

/// The positions that the plan enters: "of several shortest plans, the one entering the lower position at the first
/// move where they differ". From each position it goes to the lowest one that is a move nearer to the goal.
fn way(floor: &Floor, carry: Carry) -> Vec<usize> {
    let (levels, _) = levels(floor, carry.goal);
    let mut at = carry.start;
    (0..carry.moves)
        .rev()
        .map(|left| {
            at = (floor.neighbours[at] & levels[left]).trailing_zeros() as usize;
            at
        })
        .collect()
}

/// A plan's moves, as position left and position entered.
pub type Moves = Vec<(usize, usize)>;

/// All shortest plans for one rack alone, by replay and nothing else: every list of legal moves, longer and longer,
/// until one ends at the goal. For small floors.
pub fn shortest_plans(floor: &Floor, start: usize, goal: usize) -> Vec<Moves> {
    let mut plans: Vec<(Moves, Arrangement)> = vec![(Vec::new(), Arrangement::of(&[start as u8]))];
    loop {
        let done: Vec<Moves> =
            plans.iter().filter(|(_, now)| now.rack_at(goal) == 1).map(|(moves, _)| moves.clone()).collect();
        if !done.is_empty() {
            return done;
        }
        let mut longer = Vec::new();
        for (moves, now) in &plans {
            for (left, entered) in
                (0..floor.n).flat_map(|left| (0..floor.n).map(move |entered| (left, entered)))
            {
                if now.move_fault(floor, left, entered).is_none() {
                    let mut next = now.clone();
                    next.make_move(left, entered);
                    longer.push(([&moves[..], &[(left, entered)]].concat(), next));
                }
            }
        }
        plans = longer;
    }
}
