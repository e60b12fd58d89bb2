//! What the tool asks of the library, with buffers as long as the header says, and the record alone as the answer.

use crate::library::{self, Answer};
use crate::records::{count, plan_edition, plan_length};

/// The longest order there can be.
const ORDER_LONGEST: usize = 576;

/// The order that a short order stands for.
pub fn expanded(short: &[u8]) -> Answer<Vec<u8>> {
    let mut buffer = vec![0; ORDER_LONGEST];
    let length = library::order_expand(short, &mut buffer)?;
    buffer.truncate(length as usize);
    Ok(buffer)
}

/// The positions that an order's first byte tells, as many as a floor may have.
fn positions(order: &[u8]) -> usize {
    order.first().map_or(1, |byte| usize::from(byte >> 1).clamp(1, 64))
}

/// A plan for the order, in edition two.
pub fn planned(order: &[u8]) -> Answer<Vec<u8>> {
    let n = positions(order);
    let mut buffer = vec![0; 18 * n * n * n + 3];
    let moves = library::plan_make(order, &mut buffer)?;
    buffer.truncate(plan_length(2, moves as usize));
    Ok(buffer)
}

/// The dearest carry: its start, its goal, and its plan in edition two.
pub fn carried(order: &[u8]) -> Answer<(usize, usize, Vec<u8>)> {
    let mut buffer = vec![0; plan_length(2, positions(order) - 1)];
    let counts = library::dearest_carry(order, &mut buffer)?;
    buffer.truncate(plan_length(2, (counts >> 16) as usize));
    Ok(((counts & 0xFF) as usize, (counts >> 8 & 0xFF) as usize, buffer))
}

/// The plan without the moves that cancel.
pub fn shortened(order: &[u8], plan: &[u8]) -> Answer<Vec<u8>> {
    let mut buffer = vec![0; plan.len()];
    let moves = library::plan_shorten(order, plan, &mut buffer)?;
    buffer.truncate(plan_length(plan_edition(plan), moves as usize));
    Ok(buffer)
}

/// The plan in the other edition.
pub fn converted(order: &[u8], plan: &[u8]) -> Answer<Vec<u8>> {
    let length = if plan.len() < 3 { 0 } else { plan_length(3 - plan_edition(plan), count(plan)) };
    let mut buffer = vec![0; length];
    library::plan_convert(order, plan, &mut buffer)?;
    Ok(buffer)
}

/// The plan in this edition, whichever it is in.
pub fn in_edition(order: &[u8], plan: &[u8], edition: usize) -> Answer<Vec<u8>> {
    library::plan_check(order, plan)?;
    if plan_edition(plan) == edition {
        return Ok(plan.to_vec());
    }
    converted(order, plan)
}

/// The timetable of a plan.
pub fn timetabled(order: &[u8], plan: &[u8]) -> Answer<Vec<u8>> {
    // the count of a plan that has fewer bytes is no reason to lend gigabytes: it is refused with 30
    let moves = if plan.len() < 3 { 0 } else { count(plan).min(plan.len()) };
    let mut buffer = vec![0; 3 * moves + 3];
    library::timetable_make(order, plan, &mut buffer)?;
    let length = library::timetable_length(&buffer).unwrap_or(buffer.len());
    buffer.truncate(length);
    Ok(buffer)
}

/// The order of one position and no racks. The plan checker judges a plan's form before it looks at a move.
const NO_RACKS: [u8; 3] = [2, 0, 0];

/// Whether the bytes have the form of a plan, whatever its moves do: 30, 31.
pub fn plan_form(plan: &[u8]) -> Answer<()> {
    match library::plan_check(&NO_RACKS, plan) {
        Err(refusal) if matches!(refusal.number, 30 | 31) => Err(refusal),
        _ => Ok(()),
    }
}

/// Whether the bytes have the form of a timetable, whatever its moves do: 40, 41.
pub fn timetable_form(timetable: &[u8]) -> Answer<()> {
    match library::timetable_step(timetable, 1) {
        Err(refusal) if refusal.number != 45 => Err(refusal),
        _ => Ok(()),
    }
}
