//! Algorithm 1, "Basic agent movement operations".

use crate::agents::Agents;
use second::breakdown::{members, shortest_path};
use second::floor::all_positions;
use second::order::Floor;

/// A move: the position left, the position entered.
pub type Move = (u8, u8);

/// Which is taken of several positions that a line of the pseudo-code allows.
#[derive(Clone, Copy, PartialEq, Eq, Debug)]
pub enum Choice {
    /// The nearest, as the prose advises.
    Nearest,
    /// The first as they are numbered, or on a cycle as they are listed.
    First,
}

/// Where the agents stand, which positions are locked, and the moves so far.
pub struct World<'a> {
    pub floor: &'a Floor,
    pub choice: Choice,
    racks: usize,
    /// The agent at each position, 0 if it is vacant.
    agent_at: [u8; 64],
    /// The position of each agent, agent 1 first.
    place_of: Vec<u8>,
    locked: u64,
    moves: Vec<Move>,
}

impl<'a> World<'a> {
    /// Each agent at its start, nothing locked.
    pub fn new(floor: &'a Floor, agents: &Agents, choice: Choice) -> World<'a> {
        let mut agent_at = [0; 64];
        for (index, &start) in agents.starts.iter().enumerate() {
            agent_at[usize::from(start)] = index as u8 + 1;
        }
        let place_of = agents.starts.clone();
        World { floor, choice, racks: agents.racks, agent_at, place_of, locked: 0, moves: Vec::new() }
    }

    /// The moves made, those of stand-ins dropped.
    pub fn into_moves(self) -> Vec<Move> {
        self.moves
    }

    pub fn agent_at(&self, position: u8) -> u8 {
        self.agent_at[usize::from(position)]
    }

    pub fn place_of(&self, agent: u8) -> u8 {
        self.place_of[usize::from(agent) - 1]
    }

    pub fn is_vacant(&self, position: u8) -> bool {
        self.agent_at(position) == 0
    }

    pub fn lock(&mut self, positions: u64) {
        self.locked |= positions;
    }

    pub fn unlock(&mut self, positions: u64) {
        self.locked &= !positions;
    }

    fn unlocked(&self) -> u64 {
        all_positions(self.floor.n) & !self.locked
    }

    pub fn unlocked_vacancies(&self) -> u64 {
        let vacant = (0..self.floor.n as u8).filter(|&position| self.is_vacant(position));
        vacant.fold(0, |set, position| set | 1 << position) & self.unlocked()
    }

    /// A shortest path over unlocked positions to the nearest of the targets, both ends included.
    fn unlocked_path(&self, from: u8, targets: u64) -> Vec<u8> {
        if targets >> from & 1 == 1 {
            return vec![from];
        }
        let unlocked = self.unlocked();
        shortest_path(self.floor, usize::from(from), targets & unlocked, unlocked).expect("a path is there")
    }

    /// The target to take: by the nearest choice one of those with the shortest way from the given positions.
    pub fn choose(&self, from: u64, targets: u64) -> u8 {
        match self.choice {
            Choice::First => targets.trailing_zeros() as u8,
            Choice::Nearest => {
                let ways = members(from).map(|at| self.unlocked_path(at as u8, targets));
                ways.min_by_key(Vec::len).and_then(|way| way.last().copied()).expect("a way is there")
            }
        }
    }

    /// Make-Unoccupied: agents are shifted along a path towards an unlocked vacancy.
    pub fn make_unoccupied(&mut self, position: u8) {
        if self.is_vacant(position) {
            return;
        }
        let vacancy = self.choose(1 << position, self.unlocked_vacancies());
        let path = self.unlocked_path(position, 1 << vacancy);
        for two in path.windows(2).rev() {
            self.move_agent_unoccupied(two[0], two[1]);
        }
    }

    /// Move-Agent: the agent goes along a path, and the position ahead of it is made vacant each time.
    pub fn move_agent(&mut self, agent: u8, to: u8) {
        let path = self.unlocked_path(self.place_of(agent), 1 << to);
        for two in path.windows(2) {
            self.lock(1 << two[0]);
            self.make_unoccupied(two[1]);
            self.unlock(1 << two[0]);
            self.move_agent_unoccupied(two[0], two[1]);
        }
    }

    /// Rotate-Cycle⁺: every agent goes on to the next position, from a vacant one that stays vacant. It is
    /// passed over: the agent behind it goes two positions.
    pub fn rotate_forward(&mut self, cycle: &[u8], vacant: u8) {
        let from = index_in(cycle, vacant);
        for index in (from..from + cycle.len()).rev() {
            self.move_agent_unoccupied(cycle[index % cycle.len()], cycle[(index + 1) % cycle.len()]);
        }
    }

    /// Rotate-Cycle⁻: the same the other way.
    pub fn rotate_backward(&mut self, cycle: &[u8], vacant: u8) {
        let from = index_in(cycle, vacant);
        for index in from..from + cycle.len() {
            self.move_agent_unoccupied(cycle[(index + 1) % cycle.len()], cycle[index % cycle.len()]);
        }
    }

    /// Move-Agent-Unoccupied: the agent and the vacancy change places. Nothing moves where both are vacant.
    pub fn move_agent_unoccupied(&mut self, left: u8, entered: u8) {
        let agent = self.agent_at(left);
        if agent == 0 {
            return;
        }
        assert!(self.is_vacant(entered), "{entered} is not vacant");
        self.agent_at[usize::from(left)] = 0;
        self.agent_at[usize::from(entered)] = agent;
        self.place_of[usize::from(agent) - 1] = entered;
        if usize::from(agent) <= self.racks {
            self.moves.push((left, entered));
        }
    }
}

/// Where the position stands in the cycle.
pub fn index_in(cycle: &[u8], position: u8) -> usize {
    cycle.iter().position(|&one| one == position).expect("the position is on the cycle")
}
