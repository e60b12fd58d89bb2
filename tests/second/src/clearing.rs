//! "Clear a position by the nearest vacancy": what a clearing answers, and what it leaves.

use crate::motion::Arrangement;
use crate::order::{self, Floor, Order};
use std::collections::VecDeque;

/// The bytes that the rack at each position takes.
const RACKS: usize = 64;

/// "the shortest way from a vacancy avoiding the held ones, both ends included": the number of its edges, or
/// none, "if no vacancy has a way".
pub fn distance(floor: &Floor, racks: &Arrangement, held: u64, position: u64) -> Option<usize> {
    let is_free = |at: usize| held >> at & 1 == 0;
    let mut edges = vec![None; floor.n];
    let mut reached = VecDeque::new();
    for at in (0..floor.n).filter(|&at| racks.is_vacant(at) && is_free(at)) {
        edges[at] = Some(0);
        reached.push_back(at);
    }
    while let Some(at) = reached.pop_front() {
        for beside in 0..floor.n {
            if floor.joined(at, beside) && is_free(beside) && edges[beside].is_none() {
                edges[beside] = edges[at].map(|so_far: usize| so_far + 1);
                reached.push_back(beside);
            }
        }
    }
    *edges.get(usize::try_from(position).ok()?)?
}

/// A well-formed order and a way to the position, its racks at their starts and the buffer long enough for
/// the rack at each position.
fn cleared(order: &[u8], held: u64, position: u64, buffer_length: usize) -> Option<(Order, usize)> {
    let read = order::read(order).ok().filter(|_| buffer_length >= RACKS)?;
    let edges = distance(&read.floor, &Arrangement::starting(&read), held, position)?;
    Some((read, edges))
}

/// "that number is reported": 0 for "no way", and where nothing is cleared for another reason, else one more
/// than the moves.
pub fn answer(order: &[u8], held: u64, position: u64, buffer_length: usize) -> u64 {
    cleared(order, held, position, buffer_length).map_or(0, |(_, edges)| edges as u64 + 1)
}

/// What is wrong with the clearing of a position of an order's floor, in words. Where there is a way, the
/// first 64 bytes of the buffer are the rack at each position then.
pub fn fault(
    order: &[u8],
    held: u64,
    position: u64,
    before: &[u8],
    after: &[u8],
    told: u64,
) -> Option<String> {
    let wanted = answer(order, held, position, before.len());
    if told != wanted {
        return Some(format!("{told}, not {wanted}"));
    }
    match cleared(order, held, position, before.len()) {
        // "the answer says so and nothing moves"
        None => (before != after).then(|| "no way, and the buffer changed".to_string()),
        Some(_) if before.len() != after.len() || before[RACKS..] != after[RACKS..] => {
            Some("a byte behind the racks changed".to_string())
        }
        Some((order, edges)) => fault_of_moves(&order, held, position as usize, edges, &after[..RACKS]),
    }
}

/// "it shall take as many moves as the shortest way": the rack at the position went one edge on, the one that
/// stood there another, and so on up to the vacancy; the last of them went first.
fn fault_of_moves(order: &Order, held: u64, position: usize, edges: usize, after: &[u8]) -> Option<String> {
    let mut racks = Arrangement::starting(order);
    let mut moves = Vec::new();
    let mut at = position;
    while !racks.is_vacant(at) && moves.len() < edges {
        let Some(to) = after.iter().position(|&rack| rack == racks.rack_at(at)) else {
            return Some(format!("rack {} is gone", racks.rack_at(at)));
        };
        moves.push((at, to));
        at = to;
    }
    if moves.len() != edges || !racks.is_vacant(at) {
        return Some(format!("another number of moves than {edges}"));
    }
    for &(left, entered) in moves.iter().rev() {
        if (held >> left | held >> entered) & 1 == 1 {
            return Some(format!("{left}>{entered} touches a held position"));
        }
        if racks.move_fault(&order.floor, left, entered).is_some() {
            return Some(format!("{left}>{entered} is not legal"));
        }
        racks.make_move(left, entered);
    }
    let stands = |at: usize| racks.rack_at(at) == after[at];
    (!racks.is_vacant(position) || !(0..RACKS).all(stands)).then(|| "another rack moved".to_string())
}
