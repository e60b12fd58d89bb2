//! An answer as the exports pack it: the low 8 bits are 0 for accepted, else the number; the bits above
//! are the counts, or the place.

use second::answer::{Answer, Refusal};
use second::carry::Carry;
use second::timetable::{Counts, Part};
use second::vacancy::Judgement;

fn pack<T>(answer: Answer<T>, counts: impl Fn(T) -> u64) -> u64 {
    match answer {
        Ok(accepted) => counts(accepted) << 8,
        Err(Refusal { number, place }) => refused(number, place),
    }
}

/// A refusal: the place in bits 8 and up.
pub fn refused(number: u8, place: u32) -> u64 {
    u64::from(place) << 8 | u64::from(number)
}

/// Order and floor check: accepted is 0.
pub fn nothing<T>(answer: Answer<T>) -> u64 {
    pack(answer, |_| 0)
}

/// Plan check, planner, shortener and converter: moves. Timetable maker: steps.
pub fn count(answer: Answer<u32>) -> u64 {
    pack(answer, u64::from)
}

/// One vacancy: 1 for impossible, 0 for not judged.
pub fn judgement(answer: Answer<Judgement>) -> u64 {
    pack(answer, |judgement| u64::from(judgement == Judgement::Impossible))
}

/// Timetable check: steps in bits 8 to 29, moves in bits 30 and up.
pub fn steps_and_moves(answer: Answer<Counts>) -> u64 {
    pack(answer, |Counts { steps, moves }| u64::from(steps) | u64::from(moves) << 22)
}

/// Step reader: length in bits 8 to 23, offset in bits 24 and up.
pub fn part(answer: Answer<Part>) -> u64 {
    pack(answer, |Part { offset, length }| length as u64 | (offset as u64) << 16)
}

/// Dearest carry: start in bits 8 to 15, goal in bits 16 to 23, moves in bits 24 and up.
pub fn carry(answer: Answer<Carry>) -> u64 {
    pack(answer, |Carry { start, goal, moves }| (start | goal << 8 | moves << 16) as u64)
}

/// A count answer taken apart again.
pub fn to_count(answer: u64) -> Answer<u32> {
    assert!(answer >> 40 == 0, "bits above the answer's are set: {answer:#x}");
    match (answer & 0xFF) as u8 {
        0 => Ok((answer >> 8) as u32),
        number => Err(Refusal { number, place: (answer >> 8) as u32 }),
    }
}
