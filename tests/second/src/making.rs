//! "Making the timetable", with the trains of request (i).

use crate::answer::{refuse, Answer};
use crate::motion::{Arrangement, CAP};
use crate::order::{self, Order};
use crate::plan::{self, Plan};
use crate::record::{pack, positions};
use crate::timetable::step_length;

/// The timetable maker: the plan checker's refusals and 44, else s, with the record "written at the
/// front of the buffer; the rest is unchanged".
pub fn make(order: &[u8], plan: &[u8], buffer: &mut [u8]) -> Answer<u32> {
    make_with_cap(order, plan, buffer, CAP)
}

/// The same with so many moves in the longest train.
pub fn make_with_cap(order: &[u8], plan: &[u8], buffer: &mut [u8], cap: usize) -> Answer<u32> {
    let order = order::read(order)?;
    let plan = plan::read(plan)?;
    plan::replay(&order, plan)?;
    // 44: "timetable buffer shorter than 3 × k + 3 bytes"
    if buffer.len() < 3 * plan.k + 3 {
        return refuse(44);
    }
    let step_of = steps(&order, plan, cap);
    // "The answer is s, the greatest step so given, or 0 with no moves."
    let s = step_of.iter().copied().max().unwrap_or(0);
    write(s, &step_of, plan, buffer);
    Ok(s)
}

/// When a move is made: its step, and its place in the chain there, counted from the leader's, which is 1.
#[derive(Clone, Copy, Default)]
struct Turn {
    step: u32,
    place: usize,
}

/// The step of each move of an accepted plan.
///
/// "Moves are taken in plan order. A move's step is the greater of: one more than the step of the same
/// rack's previous move; the step of the latest earlier move that left the position now entered. With
/// neither, it is 1." And by request (i), with a cap of eight, "a move that would be ninth goes one step later".
fn steps(order: &Order, plan: Plan<'_>, cap: usize) -> Vec<u32> {
    let mut now = Arrangement::starting(order);
    let mut last_of_rack = [0; 256]; // the step of each rack's previous move
    let mut last_left = [Turn::default(); 64]; // the latest move that left each position
    let mut step_of = Vec::with_capacity(plan.k);
    for index in 0..plan.k {
        let (left, entered) = positions(plan.pair(index));
        let rack = usize::from(now.rack_at(left));
        // A rack or a position with no earlier move has 0, which makes the greater at least 1.
        let step = u32::max(last_of_rack[rack] + 1, last_left[entered].step);
        let turn = turn_at(step, last_left[entered], cap);
        last_of_rack[rack] = turn.step;
        last_left[left] = turn;
        step_of.push(turn.step);
        now.make_move(left, entered);
    }
    step_of
}

/// The turn of a move that the rule gives this step, after the latest move that left the position now entered: it
/// follows that move if both are in one step, and leads if not. One step later the position is vacant, so a move
/// that goes there leads.
fn turn_at(step: u32, latest: Turn, cap: usize) -> Turn {
    match latest.step == step {
        true if latest.place == cap => Turn { step: step + 1, place: 1 },
        true => Turn { step, place: latest.place + 1 },
        false => Turn { step, place: 1 },
    }
}

/// Writes "the record, each step's moves ascending by position left".
fn write(s: u32, step_of: &[u32], plan: Plan<'_>, buffer: &mut [u8]) {
    // The moves step by step: step i's are those from ends[i - 1] to ends[i].
    let mut ends = vec![0usize; s as usize + 1];
    for &step in step_of {
        ends[step as usize] += 1;
    }
    for step in 1..ends.len() {
        ends[step] += ends[step - 1];
    }
    let mut next = ends.clone();
    let mut sorted = vec![0u16; plan.k];
    for (index, &step) in step_of.iter().enumerate().rev() {
        let slot = &mut next[step as usize];
        *slot -= 1;
        sorted[*slot] = plan.pair(index);
    }
    buffer[..3].copy_from_slice(&(s << 2).to_be_bytes()[1..]);
    let mut rest = &mut buffer[3..];
    for bounds in ends.windows(2) {
        let moves = &mut sorted[bounds[0]..bounds[1]];
        moves.sort_unstable(); // by position left, which is the pair's upper half
        let (step, after) = rest.split_at_mut(step_length(moves.len() as u8));
        step[0] = moves.len() as u8;
        pack(moves.iter().copied(), &mut step[1..]);
        rest = after;
    }
}
