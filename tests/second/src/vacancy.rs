//! One vacancy that cannot work: whether an order with one vacant position is hopeless.

use crate::answer::{refuse, Answer};
use crate::floor::{all_positions, is_biconnected};
use crate::order::{self, Floor, Order};

/// "In other cases, and where two colours will not do, answer `not judged`."
#[derive(Clone, Copy, PartialEq, Eq, Debug)]
pub enum Judgement {
    NotJudged,
    Impossible,
}

/// 10 to 14, 29, 21, in this order, else the judgement.
pub fn check(order: &[u8]) -> Answer<Judgement> {
    let order = order::read(order)?;
    // 29: "the number of vacant positions is not one"
    if order.floor.n - order.m != 1 {
        return refuse(29);
    }
    // "and then 21 for a floor not bi-connected"
    if !is_biconnected(&order.floor) {
        return refuse(21);
    }
    Ok(judge(&order))
}

/// "For a bi-connected floor whose positions fall into two colours, each edge joining both … Answer `impossible`
/// exactly when the permutation is odd and the vacancy keeps its colour, or it is even and the colour changes."
fn judge(order: &Order) -> Judgement {
    let Some(red) = one_colour(&order.floor) else { return Judgement::NotJudged };
    let left = vacancy(order.floor.n, order.starts());
    let reached = vacancy(order.floor.n, order.goals());
    let changes = red >> left & 1 != red >> reached & 1;
    match is_odd(&permutation(order, left, reached)) == changes {
        true => Judgement::NotJudged,
        false => Judgement::Impossible,
    }
}

/// One of the two colours of a connected floor, as a set, or none where two will not do. Each position is given the
/// colour that its first neighbour has not.
fn one_colour(floor: &Floor) -> Option<u64> {
    let mut colours = [1u64, 0];
    let mut fresh = vec![(0, 0)];
    while let Some((at, colour)) = fresh.pop() {
        let neighbours = floor.neighbours[at];
        if neighbours & colours[colour] != 0 {
            return None;
        }
        let mut new = neighbours & !colours[1 - colour];
        colours[1 - colour] |= new;
        while new != 0 {
            fresh.push((new.trailing_zeros() as usize, 1 - colour));
            new &= new - 1;
        }
    }
    Some(colours[0])
}

/// The one position that no rack has.
fn vacancy(n: usize, racks: &[u8]) -> usize {
    let occupied = racks.iter().fold(0u64, |set, &at| set | 1 << at);
    (all_positions(n) & !occupied).trailing_zeros() as usize
}

/// "take the change from start to goal as a permutation with the vacancy included": where what stands at each
/// position is to stand.
fn permutation(order: &Order, left: usize, reached: usize) -> Vec<usize> {
    let mut to = vec![0; order.floor.n];
    for (&start, &goal) in order.starts().iter().zip(order.goals()) {
        to[usize::from(start)] = usize::from(goal);
    }
    to[left] = reached;
    to
}

/// A cycle of k positions is k - 1 exchanges: a permutation is odd where the positions and the cycles differ by an odd
/// number.
fn is_odd(to: &[usize]) -> bool {
    let mut seen = 0u64;
    let mut exchanges = 0;
    for first in 0..to.len() {
        let mut at = first;
        while seen >> at & 1 == 0 {
            seen |= 1 << at;
            exchanges += 1;
            at = to[at];
            if at == first {
                exchanges -= 1;
            }
        }
    }
    exchanges % 2 == 1
}

#[cfg(test)]
mod tests {
    use super::*;

    #[test]
    fn odd_and_even_permutations() {
        let odd = [vec![1, 0], vec![0, 2, 1], vec![1, 2, 3, 0], vec![1, 0, 3, 2, 5, 4]];
        let even = [vec![], vec![0], vec![0, 1], vec![1, 2, 0], vec![1, 0, 3, 2], vec![1, 2, 3, 4, 0]];
        assert!(odd.iter().all(|to| is_odd(to)));
        assert!(!even.iter().any(|to| is_odd(to)));
    }

    #[test]
    fn rings_have_two_colours_where_they_are_even() {
        for n in 3..=64 {
            let mut neighbours = [0; 64];
            for at in 0..n {
                neighbours[at] |= 1 << ((at + 1) % n) | 1 << ((at + n - 1) % n);
            }
            let evens = (0..n).step_by(2).fold(0u64, |set, at| set | 1 << at);
            let expected = if n % 2 == 0 { Some(evens) } else { None };
            assert_eq!(one_colour(&Floor { n, e: n, neighbours }), expected, "{n}");
        }
    }
}
