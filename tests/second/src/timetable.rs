//! "**Timetable**: step count s in 22 bits, two spare zero bits; each step is one byte c, then c moves,
//! then pad. A step with c = 0 is allowed."

use crate::answer::{refuse, refuse_at, Answer};
use crate::motion::{Arrangement, CAP};
use crate::order::{self, Order};
use crate::record::{head, packed_length, pad_is_set, spare_is_set};

/// The counts of a timetable: "a timetable's steps (its s) and moves (the sum of its bytes c)".
#[derive(Clone, Copy, PartialEq, Eq, Debug)]
pub struct Counts {
    pub steps: u32,
    pub moves: u32,
}

/// The part of a timetable that is one step.
#[derive(Clone, Copy, PartialEq, Eq, Debug)]
pub struct Part {
    pub offset: usize,
    pub length: usize,
}

/// A step's length in bytes: its count byte, c moves, pad.
pub fn step_length(c: u8) -> usize {
    1 + packed_length(usize::from(c))
}

/// Where the timetable ends that the bytes begin with, "after its last step"; none if they end before it does.
pub fn length(bytes: &[u8]) -> Option<usize> {
    let steps = head(bytes)? >> 2;
    let mut rest = &bytes[3..];
    for _ in 0..steps {
        rest = rest.get(step_length(*rest.first()?)..)?;
    }
    Some(bytes.len() - rest.len())
}

/// The lower of 40 and 41 that applies, else the counts.
pub fn read(record: &[u8]) -> Answer<Counts> {
    // 40: "timetable under 3 bytes, a step running past its end, or bytes left over"
    let Some(head) = head(record) else { return refuse(40) };
    let steps = head >> 2;
    let mut moves = 0;
    let mut bit_is_set = spare_is_set(head);
    let mut rest = &record[3..];
    for _ in 0..steps {
        let Some(&c) = rest.first() else { return refuse(40) };
        let length = step_length(c);
        if rest.len() < length {
            return refuse(40);
        }
        moves += u32::from(c);
        bit_is_set |= pad_is_set(&rest[1..length], usize::from(c));
        rest = &rest[length..];
    }
    if !rest.is_empty() {
        return refuse(40);
    }
    // 41: "a spare or pad bit of the timetable is set"
    if bit_is_set {
        return refuse(41);
    }
    Ok(Counts { steps, moves })
}

/// The timetable checker: the lowest of 10 to 14 and 40 to 43 that applies, else the counts.
pub fn check(order: &[u8], timetable: &[u8]) -> Answer<Counts> {
    check_with_cap(order, timetable, CAP)
}

/// The same with so many moves in the longest train.
pub fn check_with_cap(order: &[u8], timetable: &[u8], cap: usize) -> Answer<Counts> {
    let order = order::read(order)?;
    let counts = read(timetable)?;
    replay(&order, counts.steps, &timetable[3..], cap)?;
    Ok(counts)
}

/// "Each move or step is judged on the arrangement that those before it left. Replay stops at the
/// first that is not legal." The steps are known to end inside the record.
fn replay(order: &Order, steps: u32, mut rest: &[u8], cap: usize) -> Answer<()> {
    let mut now = Arrangement::starting(order);
    for number in 1..=steps {
        let (packed, after) = rest.split_at(step_length(rest[0]));
        // 42: "this step, the first such, is not legal", and "stored timetables with longer trains now meet 42"
        let Some(step) = now.legal_step(&order.floor, &packed[1..], usize::from(packed[0]), cap) else {
            return refuse_at(42, number);
        };
        now.make_step(&step);
        rest = after;
    }
    // 43: "after the timetable this rack, the lowest such, is not at its goal"
    match now.lowest_astray(order) {
        Some(rack) => refuse_at(43, rack),
        None => Ok(()),
    }
}

/// The step reader: the lowest of 40, 41, 45 that applies, else "that part of the lent timetable
/// itself, its count byte first and its pad last".
pub fn step(record: &[u8], number: u64) -> Answer<Part> {
    let counts = read(record)?;
    // 45: "step 0, or a step above s, was requested"
    if number == 0 || number > u64::from(counts.steps) {
        return refuse(45);
    }
    let mut offset = 3;
    for _ in 1..number {
        offset += step_length(record[offset]);
    }
    Ok(Part { offset, length: step_length(record[offset]) })
}
