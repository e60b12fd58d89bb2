//! Request (h): "A converter, given the order, writes the other edition".

use crate::answer::{refuse, Answer};
use crate::order;
use crate::plan;

/// The converter: "It refuses as the plan checker does", and then by 38; else the count of the plan's moves, with the
/// other edition at the front of the buffer.
pub fn convert(order: &[u8], plan: &[u8], buffer: &mut [u8]) -> Answer<u32> {
    let order = order::read(order)?;
    let plan = plan::read(plan)?;
    plan::replay(&order, plan)?;
    let other = plan.edition.other();
    // 38: "the converter's buffer is too short, last"
    if buffer.len() < plan::length(other, plan.k) {
        return refuse(38);
    }
    Ok(plan::write(&order, other, plan.pairs(), buffer))
}
