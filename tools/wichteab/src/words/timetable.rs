//! 40 to 45, of timetables, their steps and the buffer for them.

use super::plan::{astray, no_way};
use super::{counted, Given};
use crate::library::{self, Refusal};
use crate::records::{count, packed_length, Order, Plan, Timetable};
use crate::replay::Racks;

/// The most moves of a train.
const LONGEST_TRAIN: usize = 8;

pub fn meaning(refusal: Refusal, given: &Given) -> Option<String> {
    if refusal.number == 44 {
        let moves = Plan::of_record(given.plan?).moves.len();
        let (buffer, needed) = (counted(given.buffer?, "byte"), 3 * moves + 3);
        return Some(format!(
            "the buffer has {buffer}; for {} it has to have {needed}",
            counted(moves, "move")
        ));
    }
    let timetable = given.timetable?;
    if refusal.number == 40 {
        return length_meaning(timetable);
    }
    if library::timetable_length(timetable) != Some(timetable.len()) {
        return None;
    }
    match refusal.number {
        41 => bit_meaning(timetable),
        45 => {
            let steps = counted(count(timetable), "step");
            Some(format!("step {} was asked for; the timetable has {steps}", given.step?))
        }
        42 | 43 => replayed(refusal, given),
        _ => None,
    }
}

/// Offset and length of each step's bytes, as far as they are there.
fn steps(timetable: &[u8]) -> Vec<(usize, usize)> {
    let mut steps = Vec::new();
    let mut offset = 3;
    while steps.len() < count(timetable) && offset < timetable.len() {
        let length = 1 + packed_length(usize::from(timetable[offset]));
        steps.push((offset, length));
        offset += length;
    }
    steps
}

fn length_meaning(timetable: &[u8]) -> Option<String> {
    let length = counted(timetable.len(), "byte");
    if timetable.len() < 3 {
        return Some(format!("the timetable has {length}; its count alone takes 3"));
    }
    let found = steps(timetable);
    let end = found.last().map_or(3, |(offset, length)| offset + length);
    let whole = found.len() - usize::from(end > timetable.len());
    if whole < count(timetable) {
        let next = whole + 1;
        let of = count(timetable);
        return Some(format!("the timetable has {length}; step {next} of {of} runs past its end"));
    }
    let more = timetable.len() - end;
    Some(format!("{} too many behind {}", counted(more, "byte"), counted(whole, "step")))
}

fn bit_meaning(timetable: &[u8]) -> Option<String> {
    if timetable[2] & 3 != 0 {
        return Some("a spare bit is set in byte 3 of the timetable".into());
    }
    let padded = |&(offset, length): &(usize, usize)| {
        // an odd count of moves leaves half a byte
        timetable[offset] % 2 == 1 && timetable[offset + length - 1] & 15 != 0
    };
    let step = steps(timetable).iter().position(padded)? + 1;
    Some(format!("a pad bit of step {step} is set"))
}

/// 42 and 43, which the steps before the place show.
fn replayed(refusal: Refusal, given: &Given) -> Option<String> {
    library::order_check(given.order?).ok()?;
    let order = Order::of_record(given.order?);
    let timetable = Timetable::of_record(given.timetable?);
    let mut racks = Racks::starting(&order);
    let place = refusal.place as usize;
    if refusal.number == 43 {
        timetable.steps.iter().for_each(|step| racks.make(step));
        return astray(&order, &racks, place);
    }
    let step = timetable.steps.get(place.checked_sub(1)?)?;
    timetable.steps[..place - 1].iter().for_each(|step| racks.make(step));
    illegal_move(&order, &racks, step)
        .or_else(|| entered_twice(step))
        .or_else(|| step.iter().find_map(|&(left, _)| illegal_chain(&racks, step, left)))
}

/// The first move that does not ascend, has no edge or moves no rack.
fn illegal_move(order: &Order, racks: &Racks, step: &[(usize, usize)]) -> Option<String> {
    (0..step.len()).find_map(|index| {
        let (left, entered) = step[index];
        let joined = order.edges.contains(&(left.min(entered), left.max(entered)));
        let before = index.checked_sub(1).map(|before| step[before]);
        match before {
            Some((earlier, _)) if earlier == left => Some(format!("two moves leave {left}")),
            Some((earlier, on)) if earlier > left => {
                Some(format!("{left}>{entered} follows {earlier}>{on}; moves ascend by the position left"))
            }
            _ if !joined => Some(no_way(order, left, entered)),
            _ if racks.at(left) == 0 => Some(format!("no rack stands at {left}")),
            _ => None,
        }
    })
}

fn entered_twice(step: &[(usize, usize)]) -> Option<String> {
    (0..step.len()).find_map(|second| {
        let (left, entered) = step[second];
        let (earlier, _) = step[..second].iter().find(|other| other.1 == entered)?;
        Some(format!("{earlier}>{entered} and {left}>{entered} both enter {entered}"))
    })
}

/// The chain from this mover on, if it has no leader or is too long.
fn illegal_chain(racks: &Racks, step: &[(usize, usize)], mover: usize) -> Option<String> {
    let mut chain = vec![mover];
    let mut last = mover;
    while let Some(&(_, entered)) = step.iter().find(|one| one.0 == last) {
        chain.push(entered);
        last = entered;
        // a chain that comes back to a position of its own goes round for ever
        if chain[..chain.len() - 1].contains(&entered) {
            break;
        }
    }
    let drawn = chain.iter().map(usize::to_string).collect::<Vec<_>>().join(">");
    let moves = chain.len() - 1;
    match racks.at(last) {
        0 if moves > LONGEST_TRAIN => {
            Some(format!("the train {drawn} has {moves} moves; at most {LONGEST_TRAIN} may be in one"))
        }
        0 => None,
        _ if chain[..moves].contains(&last) => Some(format!("the chain {drawn} has no leader")),
        rack => Some(format!("the chain {drawn} has no leader: rack {rack} stays at {last}")),
    }
}
