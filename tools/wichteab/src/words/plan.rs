//! 30 to 38, of plans and of the buffers for them.

use super::{counted, positions, Given};
use crate::library::{self, Refusal};
use crate::records::{count, plan_edition, plan_length, Order, Plan};
use crate::replay::Racks;

pub fn meaning(refusal: Refusal, given: &Given) -> Option<String> {
    let plan = given.plan?;
    let length = counted(plan.len(), "byte");
    if plan.len() < 3 {
        return (refusal.number == 30).then(|| format!("the plan has {length}; its count alone takes 3"));
    }
    let (edition, moves) = (plan_edition(plan), count(plan));
    let whole = plan_length(edition, moves);
    match refusal.number {
        30 => {
            let moves = counted(moves, "move");
            Some(format!(
                "the plan has {length}; its length for {moves} in edition {} is {whole}",
                numeral(edition)
            ))
        }
        _ if plan.len() != whole => None,
        31 if plan[2] & 2 == 2 => {
            Some(format!("the spare bits of the plan are {:02b}, those of no edition", plan[2] & 3))
        }
        31 => Some(format!("a pad bit is set in the last byte of the plan, byte {}", plan.len())),
        37 => Some(format!(
            "the second buffer has {}; it has to have {whole}, as the plan has",
            counted(given.buffer?, "byte")
        )),
        38 => {
            let other = plan_length(3 - edition, moves);
            let buffer = counted(given.buffer?, "byte");
            let edition = numeral(3 - edition);
            Some(format!("the buffer has {buffer}; for edition {edition} it has to have {other}"))
        }
        _ => replayed(refusal, given),
    }
}

fn numeral(edition: usize) -> &'static str {
    if edition == 2 {
        "two"
    } else {
        "one"
    }
}

/// 32 to 36, which the moves before the place show.
fn replayed(refusal: Refusal, given: &Given) -> Option<String> {
    library::order_check(given.order?).ok()?;
    let order = Order::of_record(given.order?);
    let plan = Plan::of_record(given.plan?);
    let mut racks = Racks::starting(&order);
    let place = refusal.place as usize;
    if refusal.number == 33 {
        plan.moves.iter().for_each(|&one| racks.make(&[one]));
        return astray(&order, &racks, place);
    }
    let index = place.checked_sub(1)?;
    let &(left, entered) = plan.moves.get(index)?;
    plan.moves[..index].iter().for_each(|&one| racks.make(&[one]));
    match refusal.number {
        32 => Some(no_way(&order, left, entered)),
        34 => Some(format!("no rack stands at {left}")),
        35 => Some(format!("rack {} stands at {entered}", racks.at(entered))),
        36 => {
            let named = plan.racks.get(index)?;
            Some(format!("rack {} stands at {left}, the plan names rack {named}", racks.at(left)))
        }
        _ => None,
    }
}

/// Why a move from one position to the other has no edge.
pub fn no_way(order: &Order, left: usize, entered: usize) -> String {
    let n = order.positions;
    match [left, entered].into_iter().find(|&position| position >= n) {
        Some(position) => format!("there is no position {position}; {}", positions(n)),
        None => format!("no edge joins {left} and {entered}"),
    }
}

/// Where a rack stands that is not at its goal.
pub fn astray(order: &Order, racks: &Racks, rack: usize) -> Option<String> {
    let goal = order.goals.get(rack.checked_sub(1)?)?;
    Some(format!("rack {rack} stands at {}, its goal is {goal}", racks.position_of(rack)?))
}
