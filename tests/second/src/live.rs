//! Request (k), "The live floor, and who may drive it".

use crate::answer::{refuse, Answer};
use crate::motion::{Arrangement, Step, CAP};
use crate::order::{self, Floor};
use crate::record::{packed_length, pair, positions};
use crate::timetable::{self, step_length};

/// "The controller holds a live floor picture".
#[derive(Clone, Copy, PartialEq, Eq, Debug)]
pub struct Picture {
    /// The rack at each position, 0 if it is vacant.
    pub racks: [u8; 64],
    /// The steps run and not taken back.
    pub steps: u32,
    /// The n of the floor that it was opened with; 0 "until an opening succeeds".
    pub positions: u32,
}

/// A picture that no opening has touched.
pub const CLOSED: Picture = Picture { racks: [0; 64], steps: 0, positions: 0 };

/// "Any of three roles"; each may do what those before it may.
#[derive(Clone, Copy, PartialEq, Eq, PartialOrd, Ord, Debug)]
pub enum Role {
    Viewer,
    Operator,
    Supervisor,
}

impl Role {
    /// The role of a number, 1 to 3.
    pub fn of(number: u32) -> Option<Role> {
        match number {
            1 => Some(Role::Viewer),
            2 => Some(Role::Operator),
            3 => Some(Role::Supervisor),
            _ => None,
        }
    }
}

/// What is called.
#[derive(Clone, Copy, PartialEq, Eq, Debug)]
pub enum Call {
    Open,
    Read,
    Run,
    TakeBack,
}

pub const CALLS: [Call; 4] = [Call::Open, Call::Read, Call::Run, Call::TakeBack];

impl Call {
    /// "a viewer may read it; an operator may also run the next step; a supervisor may also take the last step
    /// back"; "any of three roles may open it".
    fn needs(self) -> Role {
        match self {
            Call::Open | Call::Read => Role::Viewer,
            Call::Run => Role::Operator,
            Call::TakeBack => Role::Supervisor,
        }
    }
}

/// The call by this role, with the lent order and timetable: the steps run and not taken back after it, or the
/// refusal. "A refused call changes nothing."
pub fn call(
    picture: &mut Picture,
    call: Call,
    role: Option<Role>,
    order: &[u8],
    timetable: &[u8],
) -> Answer<u32> {
    // "Until an opening succeeds, only opening is a right."
    let is_right =
        role.is_some_and(|role| role >= call.needs()) && (call == Call::Open || picture.positions != 0);
    if !is_right {
        return refuse(60);
    }
    // "Every later call lends the order and timetable again, and they are checked again."
    let steps = timetable::check(order, timetable)?.steps;
    let order = order::read(order)?;
    match call {
        Call::Open => {
            let racks = Arrangement::starting(&order).racks();
            *picture = Picture { racks, steps: 0, positions: order.floor.n as u32 };
        }
        Call::Read => {}
        // 61: "no step left to run, or the lent step is not legal on the picture"
        Call::Run => {
            if picture.steps >= steps {
                return refuse(61);
            }
            let moves = moves_of(timetable, picture.steps + 1);
            let Some(racks) = stepped(picture, &order.floor, &moves) else { return refuse(61) };
            picture.racks = racks;
            picture.steps += 1;
        }
        // 62: "no step to take back, or the lent step's moves, each turned round and then put in ascending order, are
        // not a legal step on the picture"
        Call::TakeBack => {
            if picture.steps == 0 || picture.steps > steps {
                return refuse(62);
            }
            let mut moves = moves_of(timetable, picture.steps);
            moves.iter_mut().for_each(|(left, entered)| std::mem::swap(left, entered));
            moves.sort_unstable();
            let Some(racks) = stepped(picture, &order.floor, &moves) else { return refuse(62) };
            picture.racks = racks;
            picture.steps -= 1;
        }
    }
    Ok(picture.steps)
}

/// "Steps go by their number in the lent timetable." The moves of one that it has.
fn moves_of(timetable: &[u8], number: u32) -> Vec<(usize, usize)> {
    let mut rest = &timetable[3..];
    for _ in 1..number {
        rest = &rest[step_length(rest[0])..];
    }
    (0..usize::from(rest[0])).map(|index| positions(pair(&rest[1..], index))).collect()
}

/// The racks after the step, if it is legal: "Legality goes by the lent order's floor, and a step naming a position
/// that the opening floor lacks is not legal."
fn stepped(picture: &Picture, floor: &Floor, moves: &[(usize, usize)]) -> Option<[u8; 64]> {
    let known = |position: usize| (position as u32) < picture.positions;
    if !moves.iter().all(|&(left, entered)| known(left) && known(entered)) {
        return None;
    }
    let mut now = Arrangement::with_racks(picture.racks);
    let step: Step = now.legal_step(floor, &packed(moves), moves.len(), CAP)?;
    now.make_step(&step);
    Some(now.racks())
}

/// The moves as a record packs them.
fn packed(moves: &[(usize, usize)]) -> Vec<u8> {
    let mut bytes = vec![0; packed_length(moves.len()) + 1];
    for (index, &(left, entered)) in moves.iter().enumerate() {
        let bits = (left << 6 | entered) << if index % 2 == 0 { 4 } else { 0 };
        let at = index / 2 * 3 + index % 2;
        bytes[at] |= (bits >> 8) as u8;
        bytes[at + 1] |= bits as u8;
    }
    bytes
}
