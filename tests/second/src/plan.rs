//! "**Plan**: move count k in 22 bits, two spare zero bits, k moves, pad."
//!
//! Request (h): "Edition two of the plan sets the two spare bits to 01, and each move has 6 more bits at its end,
//! rack number minus 1."

use crate::answer::{refuse, refuse_at, Answer};
use crate::motion::Arrangement;
use crate::order::{self, Order};
use crate::record::{
    head, pack, pack_triples, packed_length, pad_is_set, pair, positions, triple, triples_length,
    triples_pad_is_set,
};

/// The two forms of a plan record.
#[derive(Clone, Copy, PartialEq, Eq, Debug)]
pub enum Edition {
    One,
    Two,
}

impl Edition {
    /// The one that a converter writes.
    pub fn other(self) -> Edition {
        match self {
            Edition::One => Edition::Two,
            Edition::Two => Edition::One,
        }
    }

    /// "Spare bits 00 mean edition one", 01 edition two.
    fn spare(self) -> u32 {
        match self {
            Edition::One => 0b00,
            Edition::Two => 0b01,
        }
    }
}

/// A plan record that neither 30 nor 31 refuses.
#[derive(Clone, Copy)]
pub struct Plan<'a> {
    pub edition: Edition,
    pub k: usize,
    /// The k moves, packed.
    moves: &'a [u8],
}

impl Plan<'_> {
    /// The position left and the position entered by the move of this index, as a pair.
    #[inline]
    pub fn pair(&self, index: usize) -> u16 {
        match self.edition {
            Edition::One => pair(self.moves, index),
            Edition::Two => pair_and_rack(triple(self.moves, index)).0,
        }
    }

    /// The pairs of all moves, in plan order.
    pub fn pairs(&self) -> impl Iterator<Item = u16> + '_ {
        (0..self.k).map(|index| self.pair(index))
    }
}

/// A move of edition two, with "rack number minus 1" at its end: its pair, and its rack.
#[inline]
fn pair_and_rack(triple: u32) -> (u16, u8) {
    ((triple >> 6) as u16, (triple & 63) as u8 + 1)
}

/// The length in bytes of a plan of k moves.
pub fn length(edition: Edition, k: usize) -> usize {
    match edition {
        Edition::One => 3 + packed_length(k),
        Edition::Two => 3 + triples_length(k),
    }
}

/// The lower of 30 and 31 that applies, else the plan.
pub fn read(record: &[u8]) -> Answer<Plan<'_>> {
    // 30: "plan under 3 bytes, or its length is not the one k gives"
    let Some(head) = head(record) else { return refuse(30) };
    let (k, spare) = ((head >> 2) as usize, head & 0b11);
    // "Spare bits 00 mean edition one; 10 or 11 meet 31, their length being judged by 30 as edition one."
    let edition = if spare == Edition::Two.spare() { Edition::Two } else { Edition::One };
    if record.len() != length(edition, k) {
        return refuse(30);
    }
    // 31: "a spare or pad bit of the plan is set"
    let moves = &record[3..];
    let pad_is_set = match edition {
        Edition::One => pad_is_set(moves, k),
        Edition::Two => triples_pad_is_set(moves, k),
    };
    if spare != edition.spare() || pad_is_set {
        return refuse(31);
    }
    Ok(Plan { edition, k, moves })
}

/// The plan checker: the lowest of 10 to 14, 30 and 31 that applies; then the replay's refusal; else k.
pub fn check(order: &[u8], plan: &[u8]) -> Answer<u32> {
    let order = order::read(order)?;
    let plan = read(plan)?;
    replay(&order, plan)?;
    Ok(plan.k as u32)
}

/// "Each move or step is judged on the arrangement that those before it left. Replay stops at the
/// first that is not legal."
pub fn replay(order: &Order, plan: Plan<'_>) -> Answer<()> {
    match plan.edition {
        Edition::One => replay_moves(order, plan.k, |index| (pair(plan.moves, index), None)),
        Edition::Two => replay_moves(order, plan.k, |index| {
            let (pair, rack) = pair_and_rack(triple(plan.moves, index));
            (pair, Some(rack))
        }),
    }
}

/// The same for the moves of these indexes, each with the rack that is written with it, if one is.
#[inline]
fn replay_moves(order: &Order, k: usize, drive: impl Fn(usize) -> (u16, Option<u8>)) -> Answer<()> {
    let mut now = Arrangement::starting(order);
    for index in 0..k {
        let (pair, written) = drive(index);
        let (left, entered) = positions(pair);
        // 32, 34 and 35: "each has the move number as its place", "the first bad move deciding, and all
        // three before 33"
        if let Some(number) = now.move_fault(&order.floor, left, entered) {
            return refuse_at(number, index as u32 + 1);
        }
        // 36: "the rack written is not the one there, with 35's place and order, but after 35 for the same
        // move"
        if written.is_some_and(|rack| rack != now.rack_at(left)) {
            return refuse_at(36, index as u32 + 1);
        }
        now.make_move(left, entered);
    }
    // 33: "after the plan this rack, the lowest such, is not at its goal"
    match now.lowest_astray(order) {
        Some(rack) => refuse_at(33, rack),
        None => Ok(()),
    }
}

/// Writes the plan of these moves in this edition over the first bytes of the buffer: the count of them. Each is
/// legal at its turn, so that replay tells the rack that it moves.
pub fn write(order: &Order, edition: Edition, moves: impl Iterator<Item = u16>, buffer: &mut [u8]) -> u32 {
    let (head, body) = buffer.split_at_mut(3);
    let k = match edition {
        Edition::One => pack(moves, body),
        Edition::Two => {
            let mut now = Arrangement::starting(order);
            let with_rack = |pair| {
                let (left, entered) = positions(pair);
                let rack = now.rack_at(left);
                now.make_move(left, entered);
                // "rack number minus 1"
                u32::from(pair) << 6 | u32::from(rack - 1)
            };
            pack_triples(moves.map(with_rack), body)
        }
    } as u32;
    head.copy_from_slice(&(k << 2 | edition.spare()).to_be_bytes()[1..]);
    k
}
