//! What document 01 and demand 3 oblige a planner to answer and to write. The plan's moves are free,
//! so a planner's output is judged and not made again.

use crate::answer::{refuse, Answer};
use crate::floor;
use crate::order::{self, Order};
use crate::plan::{self, Edition};

/// The length of a plan buffer that is enough on a floor of n positions.
pub fn enough(n: usize) -> usize {
    18 * n.pow(3) + 3
}

/// The planner's refusal, the first of 10 to 14, 20, 21, 24, 26 and 23 that applies, else the order to plan.
pub fn judge_call(order: &[u8], buffer_length: usize) -> Answer<Order> {
    let order = order::read(order)?;
    floor::judge(&order)?;
    // "The planner writes edition two, needs 18 × n × n × n + 3 bytes, and 23 uses that size"
    if buffer_length < enough(order.floor.n) {
        return refuse(23);
    }
    Ok(order)
}

/// What is wrong with a planner's answer and with its buffer afterwards, in words.
pub fn fault(order: &[u8], before: &[u8], after: &[u8], answer: Answer<u32>) -> Option<String> {
    match (judge_call(order, before.len()), answer) {
        (Err(expected), _) if answer != Err(expected) => Some(format!("{answer:?}, not {expected:?}")),
        // "No lent byte changes on a refusal."
        (Err(_), _) => (before != after).then(|| "refused, and the buffer changed".to_string()),
        (Ok(_), Err(refusal)) => Some(format!("{refusal:?} where a plan is owed")),
        (Ok(read), Ok(k)) => fault_of_plan(&read, order, before, after, k as usize),
    }
}

/// Demand 3: "a plan of at most 8 × n × n × n one-rack moves: replayed from the starts, every move is
/// legal at its turn, and after the last one every rack stands at its goal".
fn fault_of_plan(read: &Order, order: &[u8], before: &[u8], after: &[u8], k: usize) -> Option<String> {
    if k > 8 * read.floor.n.pow(3) {
        return Some(format!("{k} moves, too many"));
    }
    // "If each start is its goal, the plan has no moves."
    if k > 0 && read.starts() == read.goals() {
        return Some(format!("{k} moves where each start is its goal"));
    }
    // "After acceptance the buffer holds the plan record first, other bytes unchanged, and the answer
    // gives the count of its moves."
    let length = plan::length(Edition::Two, k);
    if before.len() != after.len() || before[length..] != after[length..] {
        return Some("a byte behind the record changed".to_string());
    }
    // "In demand 2, an edition-two plan with a wrong rack is no solution": the checker's 36.
    let record = &after[..length];
    match (plan::check(order, record), plan::read(record)) {
        (Err(refusal), _) => Some(format!("the plan checker answers {refusal:?}")),
        (_, Ok(plan)) if plan.edition == Edition::Two => None,
        _ => Some("not edition two".to_string()),
    }
}
