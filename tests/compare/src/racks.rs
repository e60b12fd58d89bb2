//! An arrangement of racks, and random moves and steps on it.

use crate::floors::Floor;
use crate::random::Random;
use crate::write::Move;

/// "The new power rail feeds eight racks in a train."
pub const LONGEST_TRAIN: usize = 8;

/// Where the racks stand.
#[derive(Clone)]
pub struct Racks {
    pub n: usize,
    pub neighbours: [u64; 64],
    /// The rack at each position, 0 if it is vacant.
    pub rack_at: [u8; 64],
    /// The positions that hold a rack.
    pub occupied: u64,
}

/// The set of this position alone.
pub fn only(position: u8) -> u64 {
    1 << position
}

impl Racks {
    pub fn new(floor: &Floor, starts: &[u8]) -> Racks {
        let mut racks = Racks { n: floor.n, neighbours: floor.neighbours(), rack_at: [0; 64], occupied: 0 };
        for (index, &start) in starts.iter().enumerate() {
            racks.rack_at[usize::from(start)] = index as u8 + 1;
            racks.occupied |= only(start);
        }
        racks
    }

    pub fn vacant(&self) -> u64 {
        u64::MAX >> (64 - self.n) & !self.occupied
    }

    pub fn joined(&self, position: u8) -> u64 {
        self.neighbours[usize::from(position)]
    }

    /// The place of each rack, rack 1 first.
    pub fn places(&self) -> Vec<u8> {
        let mut places = vec![0; self.occupied.count_ones() as usize];
        for (position, &rack) in self.rack_at.iter().enumerate().filter(|(_, &rack)| rack > 0) {
            places[usize::from(rack) - 1] = position as u8;
        }
        places
    }

    /// Makes these moves, all at once.
    pub fn make(&mut self, moves: &[Move]) {
        let before = self.rack_at;
        for &(left, _) in moves {
            self.rack_at[usize::from(left)] = 0;
            self.occupied &= !only(left);
        }
        for &(left, entered) in moves {
            self.rack_at[usize::from(entered)] = before[usize::from(left)];
            self.occupied |= only(entered);
        }
    }

    /// A legal move, if there is one.
    pub fn random_move(&self, random: &mut Random) -> Option<Move> {
        let mut enterable = self.vacant();
        while enterable != 0 {
            let entered = random.member(enterable);
            let movers = self.joined(entered) & self.occupied;
            if movers != 0 {
                return Some((random.member(movers), entered));
            }
            enterable &= !only(entered);
        }
        None
    }

    /// A move to a position that is not joined to the one left, which holds a rack.
    pub fn move_apart(&self, random: &mut Random) -> Option<Move> {
        let left = random.member(nonempty(self.occupied)?);
        let apart = (self.vacant() | self.occupied) & !self.joined(left);
        Some((left, random.member(nonempty(apart & self.vacant()).or(nonempty(apart))?)))
    }

    /// A move from or to a position that is n or more, if there can be one.
    pub fn move_outside(&self, random: &mut Random) -> Option<Move> {
        nonempty((64 - self.n) as u64)?;
        let outside = random.between(self.n, 63) as u8;
        let inside = random.member(self.vacant() | self.occupied);
        Some(if random.one_in(2) { (inside, outside) } else { (outside, inside) })
    }

    /// A legal step of several trains, ascending by position left. Racks at the positions held stay.
    pub fn random_step(&self, random: &mut Random, held: u64) -> Vec<Move> {
        let trains = match random.one_in(4) {
            true => self.random_trains(random, held, (LONGEST_TRAIN, LONGEST_TRAIN)),
            false => self.random_trains(random, held, (1, 4)),
        };
        let mut moves = trains.concat();
        moves.sort_unstable();
        moves
    }

    /// Several trains that may go in one step, the leader of each first, with a number of moves between these two
    /// or as many as there can be. Racks at the positions held stay.
    pub fn random_trains(
        &self,
        random: &mut Random,
        held: u64,
        (least, most): (usize, usize),
    ) -> Vec<Vec<Move>> {
        let mut enterable = self.vacant() & !held;
        let mut waiting = self.occupied & !held;
        let mut trains = Vec::new();
        for _ in 0..random.between(0, 5) {
            if enterable == 0 {
                break;
            }
            let entered = random.member(enterable);
            enterable &= !only(entered);
            let length = random.between(least, most);
            let train = self.random_train(random, entered, waiting, length);
            waiting = train.iter().fold(waiting, |set, &(left, _)| set & !only(left));
            trains.push(train);
        }
        trains
    }

    /// A train of racks that wait, the leader into this position first, with so many moves or as many as there can
    /// be.
    pub fn random_train(
        &self,
        random: &mut Random,
        mut entered: u8,
        mut waiting: u64,
        length: usize,
    ) -> Vec<Move> {
        let mut train = Vec::new();
        while train.len() < length {
            let Some(left) = self.follower(random, entered, waiting, length > 4) else { break };
            train.push((left, entered));
            waiting &= !only(left);
            entered = left;
        }
        train
    }

    /// A rack that may enter the position, for a long train the one with the fewest racks beside it.
    fn follower(&self, random: &mut Random, entered: u8, waiting: u64, longest: bool) -> Option<u8> {
        let movers = self.joined(entered) & waiting;
        if movers == 0 {
            return None;
        }
        match longest {
            false => Some(random.member(movers)),
            true => (0..64)
                .filter(|&mover| movers & only(mover) != 0)
                .min_by_key(|&mover| (self.joined(mover) & waiting).count_ones()),
        }
    }

    /// A ring of at least three positions that all hold a rack, if a random walk closes one.
    pub fn random_ring(&self, random: &mut Random) -> Option<Vec<u8>> {
        let mut walk = vec![random.member(nonempty(self.occupied)?)];
        loop {
            let at = walk[walk.len() - 1];
            let before = if walk.len() > 1 { only(walk[walk.len() - 2]) } else { 0 };
            let next = random.member(nonempty(self.joined(at) & self.occupied & !before)?);
            if let Some(first) = walk.iter().position(|&position| position == next) {
                return Some(walk.split_off(first));
            }
            walk.push(next);
        }
    }
}

/// The set, if it has a member.
pub fn nonempty(set: u64) -> Option<u64> {
    (set != 0).then_some(set)
}
