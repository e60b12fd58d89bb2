//! "Each refusal is a number and a place. The place is 0 unless the row names one."

/// A refusal: a number of the table "Returned numbers", and its place.
#[derive(Clone, Copy, PartialEq, Eq, Debug)]
pub struct Refusal {
    pub number: u8,
    pub place: u32,
}

/// "either accepted, with counts, or refused, with a place and one of the faults"
pub type Answer<Counts> = Result<Counts, Refusal>;

/// The refusal of a row that names no place.
pub fn refuse<Counts>(number: u8) -> Answer<Counts> {
    refuse_at(number, 0)
}

/// The refusal of a row that names a move, a step or a rack.
pub fn refuse_at<Counts>(number: u8, place: u32) -> Answer<Counts> {
    Err(Refusal { number, place })
}
