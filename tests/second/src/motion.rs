//! "Legal moves and steps": arrangements, and replay over them.

use crate::order::{Floor, Order};
use crate::record::{pair, positions};

/// Request (i): "The new power rail feeds eight racks in a train." The functions that judge or make steps for the
/// product have this cap; those that end in `with_cap` take any, so that small floors meet it too.
pub const CAP: usize = 8;

/// A cap that no step meets: it moves at most 64 racks. With it the steps are those of document 01 alone.
pub const NO_CAP: usize = 64;

/// Where the racks stand. "A position holds at most one rack."
#[derive(Clone, PartialEq, Eq, Debug)]
pub struct Arrangement {
    /// The rack at each position, 0 if it is vacant.
    rack_at: [u8; 64],
}

impl Arrangement {
    /// "Replay first puts each rack at its start."
    pub fn starting(order: &Order) -> Arrangement {
        Arrangement::of(order.starts())
    }

    /// The arrangement with rack r at the place of index r - 1.
    pub fn of(places: &[u8]) -> Arrangement {
        let mut rack_at = [0; 64];
        for (index, &place) in places.iter().enumerate() {
            rack_at[usize::from(place)] = index as u8 + 1;
        }
        Arrangement { rack_at }
    }

    /// The arrangement with this rack at each position, whoever wrote them.
    pub fn with_racks(rack_at: [u8; 64]) -> Arrangement {
        Arrangement { rack_at }
    }

    /// The rack at each position.
    pub fn racks(&self) -> [u8; 64] {
        self.rack_at
    }

    #[inline]
    pub fn is_vacant(&self, position: usize) -> bool {
        self.rack_at[position] == 0
    }

    /// The rack at the position, 0 if it is vacant.
    #[inline]
    pub fn rack_at(&self, position: usize) -> u8 {
        self.rack_at[position]
    }

    /// "A move is legal if both positions are below n, an edge joins them, the first holds a rack and
    /// the second is vacant." Otherwise it has a number, by request (c), "tested after 32 for the same
    /// move".
    #[inline]
    pub fn move_fault(&self, floor: &Floor, left: usize, entered: usize) -> Option<u8> {
        // "32 means that a position is n or more or that no edge joins the two"
        if left >= floor.n || entered >= floor.n || !floor.joined(left, entered) {
            return Some(32);
        }
        // "34 no rack at the position left"
        if self.is_vacant(left) {
            return Some(34);
        }
        // "35 the position entered is occupied"
        if !self.is_vacant(entered) {
            return Some(35);
        }
        None
    }

    /// "A legal move takes the rack at the position left to the position entered and leaves all others
    /// where they are".
    #[inline]
    pub fn make_move(&mut self, left: usize, entered: usize) {
        self.rack_at[entered] = self.rack_at[left];
        self.rack_at[left] = 0;
    }

    /// The step's moves, if it is legal:
    ///
    /// "A step is legal if its moves ascend strictly by position left; both positions of each are below
    /// n and joined by an edge; each position left holds a rack; no position is entered twice; and each
    /// move belongs to a train with a leader." And by request (i), with a cap of eight, "a legal step has no chain
    /// of more than eight moves from any mover to its leader."
    pub fn legal_step(&self, floor: &Floor, packed: &[u8], c: usize, cap: usize) -> Option<Step> {
        let mut step = Step { left: 0, entered: 0, to: [0; 64] };
        let mut lowest = 0; // that the next move may leave
        for index in 0..c {
            let (left, entered) = positions(pair(packed, index));
            let in_order = left >= lowest;
            let joined = left < floor.n && entered < floor.n && floor.joined(left, entered);
            if !in_order || !joined || self.is_vacant(left) || step.entered >> entered & 1 == 1 {
                return None;
            }
            lowest = left + 1;
            step.left |= 1 << left;
            step.entered |= 1 << entered;
            step.to[left] = entered as u8;
        }
        (self.longest_chain(&step, c)? <= cap).then_some(step)
    }

    /// "The chain is followed rack by rack to its leader: a move into a position left in the same step
    /// follows that move, and the chain has to end at a move into a position vacant before the step."
    /// The moves of the longest chain, mover and leader included, if each has such an end.
    ///
    /// Positions are left once and entered once, so the moves are chains that share nothing, each from
    /// a position that no move enters, and full rings. From there the chain is longest: that of any other
    /// mover is a part of it. The moves on the chains are counted: where there are fewer than c, a ring turns.
    fn longest_chain(&self, step: &Step, c: usize) -> Option<usize> {
        let (mut in_chains, mut longest) = (0, 0);
        let mut lasts = step.left & !step.entered;
        while lasts != 0 {
            let mut at = lasts.trailing_zeros() as usize;
            lasts &= lasts - 1;
            let mut chain = 0;
            while step.left >> at & 1 == 1 {
                at = usize::from(step.to[at]);
                chain += 1;
            }
            if !self.is_vacant(at) {
                return None;
            }
            in_chains += chain;
            longest = longest.max(chain);
        }
        (in_chains == c).then_some(longest)
    }

    /// "a legal step does so for all its moves at once"
    pub fn make_step(&mut self, step: &Step) {
        let before = self.rack_at;
        let mut left = step.left;
        while left != 0 {
            let at = left.trailing_zeros() as usize;
            left &= left - 1;
            self.rack_at[at] = 0;
        }
        let mut left = step.left;
        while left != 0 {
            let at = left.trailing_zeros() as usize;
            left &= left - 1;
            self.rack_at[usize::from(step.to[at])] = before[at];
        }
    }

    /// The lowest rack that is not at its goal.
    pub fn lowest_astray(&self, order: &Order) -> Option<u32> {
        let astray = |&rack: &usize| usize::from(self.rack_at(usize::from(order.goals[rack - 1]))) != rack;
        (1..=order.m).find(astray).map(|rack| rack as u32)
    }
}

/// The moves of a legal step: the set of positions left, the set of positions entered, and for each
/// position left the one entered from it.
pub struct Step {
    left: u64,
    entered: u64,
    to: [u8; 64],
}
