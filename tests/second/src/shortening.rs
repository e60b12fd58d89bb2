//! Shorter plans: "Plans sometimes drive a rack out and straight back."
//!
//! The rule by its own words, pair by pair: it takes time in the cube of the moves at worst, and is for short
//! plans. `in_one_pass` is for long ones.

use crate::answer::{refuse, Answer};
use crate::motion::Arrangement;
use crate::order::{self, Order};
use crate::plan::{self, Plan};
use crate::record::positions;

/// A move with the rack that it moves.
#[derive(Clone, Copy)]
struct Drive {
    rack: u8,
    left: usize,
    entered: usize,
}

impl Drive {
    fn touches(&self, position: usize) -> bool {
        self.left == position || self.entered == position
    }
}

/// "Two moves cancel if the later undoes the earlier for the same rack and no move between them leaves or
/// enters either position."
fn cancel(drives: &[Drive], i: usize, j: usize) -> bool {
    let (earlier, later) = (drives[i], drives[j]);
    let undoes = later.left == earlier.entered && later.entered == earlier.left;
    let visited = |one: &Drive| one.touches(earlier.left) || one.touches(earlier.entered);
    undoes && later.rack == earlier.rack && !drives[i + 1..j].iter().any(visited)
}

/// "the cancelling pair whose later move comes first"
fn first_pair(drives: &[Drive]) -> Option<(usize, usize)> {
    let pairs = (0..drives.len()).flat_map(|j| (0..j).map(move |i| (i, j)));
    pairs.into_iter().find(|&(i, j)| cancel(drives, i, j))
}

/// "Remove the cancelling pair whose later move comes first, and repeat until none is left."
fn by_the_rule(order: &Order, plan: Plan<'_>) -> Vec<u16> {
    let mut now = Arrangement::starting(order);
    let mut drives = Vec::with_capacity(plan.k);
    for (left, entered) in plan.pairs().map(positions) {
        drives.push(Drive { rack: now.rack_at(left), left, entered });
        now.make_move(left, entered);
    }
    while let Some((i, j)) = first_pair(&drives) {
        drives.remove(j);
        drives.remove(i);
    }
    drives.iter().map(|one| (one.left << 6 | one.entered) as u16).collect()
}

/// The same for long plans: for each position the latest kept move that touches it, and for each kept move the
/// ones that did before it. A move cancels if the latest of both its positions is one move, which it undoes.
fn in_one_pass(_: &Order, plan: Plan<'_>) -> Vec<u16> {
    const NONE: u32 = u32::MAX;
    let mut latest = [NONE; 64];
    let mut before = vec![[NONE; 2]; plan.k];
    let mut kept = vec![false; plan.k];
    for index in 0..plan.k {
        let (left, entered) = positions(plan.pair(index));
        let last = latest[left];
        if last != NONE && last == latest[entered] && positions(plan.pair(last as usize)) == (entered, left) {
            kept[last as usize] = false;
            [latest[entered], latest[left]] = before[last as usize];
            continue;
        }
        before[index] = [latest[left], latest[entered]];
        kept[index] = true;
        latest[left] = index as u32;
        latest[entered] = index as u32;
    }
    (0..plan.k).filter(|&index| kept[index]).map(|index| plan.pair(index)).collect()
}

/// "The result is written to a second buffer": the count of its moves, or the refusal. "Its input is refused
/// as by the plan checker."
pub fn shorten(order: &[u8], plan: &[u8], buffer: &mut [u8]) -> Answer<u32> {
    write(order, plan, buffer, by_the_rule)
}

/// The same with the faster pass, which the tests hold to the rule.
pub fn shorten_long(order: &[u8], plan: &[u8], buffer: &mut [u8]) -> Answer<u32> {
    write(order, plan, buffer, in_one_pass)
}

fn write(
    order: &[u8],
    record: &[u8],
    buffer: &mut [u8],
    shortened: impl Fn(&Order, Plan<'_>) -> Vec<u16>,
) -> Answer<u32> {
    let order = order::read(order)?;
    let plan = plan::read(record)?;
    plan::replay(&order, plan)?;
    // 37: "the second buffer is shorter than the plan given; after 33"
    if buffer.len() < record.len() {
        return refuse(37);
    }
    // "the shortener writes the edition it read"
    let moves = shortened(&order, plan);
    Ok(plan::write(&order, plan.edition, moves.into_iter(), buffer))
}

#[cfg(test)]
mod tests {
    use super::*;

    fn drive(rack: u8, left: usize, entered: usize) -> Drive {
        Drive { rack, left, entered }
    }

    #[test]
    fn out_and_straight_back() {
        let drives = [drive(1, 0, 1), drive(2, 5, 6), drive(1, 1, 0)];
        assert!(cancel(&drives, 0, 2));
        assert_eq!(first_pair(&drives), Some((0, 2)));
    }

    #[test]
    fn a_visit_between_keeps_both() {
        let drives = [drive(1, 0, 1), drive(2, 5, 0), drive(2, 0, 5), drive(1, 1, 0)];
        assert!(!cancel(&drives, 0, 3));
        assert_eq!(first_pair(&drives), Some((1, 2)));
    }

    #[test]
    fn the_later_move_comes_first() {
        let drives = [drive(1, 0, 1), drive(2, 5, 6), drive(2, 6, 5), drive(1, 1, 0)];
        assert_eq!(first_pair(&drives), Some((1, 2)));
    }
}
