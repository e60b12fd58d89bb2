//! The racks as they are moved, by moves and steps that the library has found legal.

use crate::records::Order;

/// The rack at each position, 0 if it is vacant.
pub struct Racks(Vec<usize>);

impl Racks {
    /// Each rack at its start.
    pub fn starting(order: &Order) -> Racks {
        let mut racks = vec![0; order.positions];
        for (index, &start) in order.starts.iter().enumerate() {
            racks[start] = index + 1;
        }
        Racks(racks)
    }

    /// The rack at a position, 0 if it is vacant or no position of the floor.
    pub fn at(&self, position: usize) -> usize {
        self.0.get(position).copied().unwrap_or(0)
    }

    /// Where a rack stands.
    pub fn position_of(&self, rack: usize) -> Option<usize> {
        self.0.iter().position(|&other| other == rack)
    }

    /// Makes the moves all at once.
    pub fn make(&mut self, moves: &[(usize, usize)]) {
        let taken: Vec<usize> = moves.iter().map(|&(left, _)| std::mem::take(&mut self.0[left])).collect();
        for (&(_, entered), rack) in moves.iter().zip(taken) {
            self.0[entered] = rack;
        }
    }
}
