//! 20 to 29, of floors that cannot be planned, carried over or asked about.

use super::{counted, listed, Given};
use crate::library;
use crate::records::{plan_length, Order};

pub fn meaning(number: u8, given: &Given) -> Option<String> {
    // the order itself was accepted: 10 to 14 come before these
    library::order_check(given.order?).ok()?;
    let order = Order::of_record(given.order?);
    let n = order.positions;
    let vacant = n - order.starts.len();
    match number {
        20 => {
            Some(format!("vacant positions: {vacant} of {n}; at least two have to be vacant, on a ring one"))
        }
        21 if n < 3 => Some(format!("the floor has {}; it takes at least 3", counted(n, "position"))),
        21 => parted(&order, n).or_else(|| (0..n).find_map(|removed| parted(&order, removed))),
        24 => round_meaning(&order),
        26 => (0..n).find_map(|position| {
            let joined = neighbours(&order, position);
            (joined.len() > 4).then(|| {
                let count = joined.len();
                format!(
                    "position {position} has {count} edges, to {}; a rack has four sides",
                    listed(&joined)
                )
            })
        }),
        27 => parted(&order, n),
        29 => Some(match vacant {
            0 => "no position is vacant; the question is of one vacant position".into(),
            _ => format!("{} are vacant; the question is of one", counted(vacant, "position")),
        }),
        23 => buffer(given, n, 18 * n * n * n + 3),
        28 => buffer(given, n, plan_length(2, n - 1)),
        _ => None,
    }
}

fn buffer(given: &Given, n: usize, needed: usize) -> Option<String> {
    let length = counted(given.buffer?, "byte");
    Some(format!("the plan buffer has {length}; for {} it has to have {needed}", counted(n, "position")))
}

fn neighbours(order: &Order, position: usize) -> Vec<usize> {
    let other = |&(a, b): &(usize, usize)| match position {
        _ if a == position => Some(b),
        _ if b == position => Some(a),
        _ => None,
    };
    let mut joined: Vec<usize> = order.edges.iter().filter_map(other).collect();
    joined.sort_unstable();
    joined
}

/// Two positions that no way joins without the one that is taken away, in words; n takes none away.
fn parted(order: &Order, removed: usize) -> Option<String> {
    let n = order.positions;
    let first = (0..n).find(|&position| position != removed)?;
    let mut reached = vec![false; n];
    let mut waiting = vec![first];
    while let Some(position) = waiting.pop() {
        if position != removed && !reached[position] {
            reached[position] = true;
            waiting.extend(neighbours(order, position));
        }
    }
    let other = (0..n).find(|&position| position != removed && !reached[position])?;
    Some(match removed == n {
        true => format!("no way leads from {first} to {other}"),
        false => format!("without position {removed} no way leads from {first} to {other}"),
    })
}

/// The positions of a ring, read round from 0.
fn round(order: &Order) -> Vec<usize> {
    let mut round = vec![0];
    while round.len() < order.positions {
        let last = round[round.len() - 1];
        match neighbours(order, last).into_iter().find(|next| !round.contains(next)) {
            Some(next) => round.push(next),
            None => break,
        }
    }
    round
}

fn round_meaning(order: &Order) -> Option<String> {
    let racks_round = |places: &[usize]| {
        let rack_at = |position| places.iter().position(|place| *place == position);
        let mut racks: Vec<usize> = round(order).into_iter().filter_map(rack_at).map(|at| at + 1).collect();
        let first = racks.iter().position(|&rack| rack == 1)?;
        racks.rotate_left(first);
        Some(racks.iter().map(usize::to_string).collect::<Vec<_>>().join(" "))
    };
    let (starts, goals) = (racks_round(&order.starts)?, racks_round(&order.goals)?);
    Some(format!("round the ring the racks stand {starts} at the start, {goals} at the goal"))
}
