//! "The floor": connected, bi-connected, ring, and the planner's judgement before it measures its
//! buffer. Requests (d), "Ring floors", and (j), "Four sides only".

use crate::answer::{refuse, Answer};
use crate::order::{self, Floor, Order};

/// The planner's judgement without a buffer: the first of 10 to 14, 20, 21, 24 and 26 that applies.
pub fn check(order: &[u8]) -> Answer<()> {
    judge(&order::read(order)?)
}

/// The first of 20, 21, 24 and 26 that applies to a well-formed order.
pub fn judge(order: &Order) -> Answer<()> {
    let ring = is_ring(&order.floor);
    // 20: "m + 2 is above n"; "On a ring, 20 is given only when no position is vacant."
    let crowded = if ring { order.m == order.floor.n } else { order.m + 2 > order.floor.n };
    if crowded {
        return refuse(20);
    }
    // 21: "floor not bi-connected"
    if !is_biconnected(&order.floor) {
        return refuse(21);
    }
    // 24: "the order round the ring differs; after 21, before 23"
    if ring && !same_order_round(order) {
        return refuse(24);
    }
    // 26: "a position has five or more edges; after 24, before 23"
    if most_edges(&order.floor) >= 5 {
        return refuse(26);
    }
    Ok(())
}

/// How many edges the position has that has the most.
pub fn most_edges(floor: &Floor) -> usize {
    floor.neighbours.iter().map(|joined| joined.count_ones() as usize).max().unwrap_or(0)
}

/// The positions of a ring in their order round it, from 0 on.
pub fn round(floor: &Floor) -> Vec<usize> {
    let mut round = vec![0];
    let mut met = 1u64;
    while round.len() < floor.n {
        let at = round[round.len() - 1];
        let next = (floor.neighbours[at] & !met).trailing_zeros() as usize;
        round.push(next);
        met |= 1 << next;
    }
    round
}

/// The racks that stand at `places`, read in the order of `round`, vacancies passed over.
fn read_round(round: &[usize], places: &[u8]) -> Vec<usize> {
    let rack_at = |&position: &usize| places.iter().position(|&place| usize::from(place) == position);
    round.iter().filter_map(rack_at).collect()
}

/// "whenever the racks stand in the same order round it at start and goal": read from the same rack on,
/// in the same sense, they are the same.
pub fn same_order_round(order: &Order) -> bool {
    let round = round(&order.floor);
    let starts = read_round(&round, order.starts());
    let mut goals = read_round(&round, order.goals());
    let turn = starts.first().and_then(|first| goals.iter().position(|rack| rack == first));
    goals.rotate_left(turn.unwrap_or(0));
    starts == goals
}

/// The set of all positions of a floor.
pub fn all_positions(n: usize) -> u64 {
    u64::MAX >> (64 - n)
}

/// Whether every two positions of the set are joined by a walk inside the set.
pub fn is_connected(floor: &Floor, set: u64) -> bool {
    let mut reached = set & set.wrapping_neg();
    let mut fresh = reached;
    while fresh != 0 {
        let at = fresh.trailing_zeros() as usize;
        let neighbours = floor.neighbours[at] & set & !reached;
        fresh = fresh & (fresh - 1) | neighbours;
        reached |= neighbours;
    }
    reached == set
}

/// "A floor is bi-connected if n is at least 3, it is connected, and it stays connected when any one
/// position is taken away."
pub fn is_biconnected(floor: &Floor) -> bool {
    let all = all_positions(floor.n);
    let stays_connected = |taken: usize| is_connected(floor, all & !(1 << taken));
    floor.n >= 3 && is_connected(floor, all) && (0..floor.n).all(stays_connected)
}

/// "A ring is a bi-connected floor with exactly n edges."
pub fn is_ring(floor: &Floor) -> bool {
    floor.e == floor.n && is_biconnected(floor)
}
