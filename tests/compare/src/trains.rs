//! Request (i), "Trains of at most eight": steps with chains of given lengths, and plans that drive racks in trains.
//! What is to come of the steps, and of plans for one row of racks, is certain from how they were made.

use crate::floors::{self, Floor, MOST_EDGES};
use crate::orders;
use crate::packed::refused;
use crate::plans;
use crate::racks::{Racks, LONGEST_TRAIN};
use crate::random::Random;
use crate::timetables;
use crate::write::{Move, Order, Step, Timetable};

kinds! {
    /// What the first move of a chain enters: "the chain has to end at a move into a position vacant before the
    /// step".
    pub enum End in ENDS {
        Vacant,
        Standing,
        Ring,
    }
}

/// A chain of so many moves, in a ring at least two.
#[derive(Clone, Copy, Debug)]
pub struct Chain {
    pub length: usize,
    pub end: End,
}

impl Chain {
    /// "A legal step has no chain of more than eight moves from any mover to its leader."
    pub fn is_legal(self) -> bool {
        self.end == End::Vacant && self.length <= LONGEST_TRAIN
    }

    /// Whether it is legal but for its length.
    pub fn is_too_long(self) -> bool {
        self.end == End::Vacant && self.length > LONGEST_TRAIN
    }

    /// How many positions it takes. In a ring the first that is entered is the last that is left.
    fn size(self) -> usize {
        match self.end {
            End::Ring => self.length,
            _ => self.length + 1,
        }
    }

    /// Its moves along these positions, the leader's first.
    fn moves(self, along: &[u8]) -> Vec<Move> {
        let mut moves: Vec<Move> = along.windows(2).map(|two| (two[1], two[0])).collect();
        if self.end == End::Ring {
            moves.push((along[0], along[along.len() - 1]));
        }
        moves
    }

    /// Those of these positions that hold a rack.
    fn occupied(self, along: &[u8]) -> &[u8] {
        match self.end {
            End::Vacant => &along[1..],
            _ => along,
        }
    }
}

/// One chain of each length up to 20 and with each end, and each two of them of which the first enters a vacancy.
pub fn every_one_and_two() -> Vec<Vec<Chain>> {
    let of_length = |length| ENDS.map(|end| Chain { length, end });
    let all: Vec<Chain> = (1..=20).flat_map(of_length).filter(|chain| chain.size() > 1).collect();
    let leading = all.iter().filter(|chain| chain.end == End::Vacant);
    let twos = leading.flat_map(|&first| all.iter().map(move |&second| vec![first, second]));
    all.iter().map(|&chain| vec![chain]).chain(twos).collect()
}

/// Whether a step of these chains is legal but for the length of one.
pub fn only_too_long(chains: &[Chain]) -> bool {
    chains.iter().any(|chain| chain.is_too_long())
        && chains.iter().all(|chain| chain.is_legal() || chain.is_too_long())
}

/// An order and a timetable, in which the step of these chains stands among steps of waiting, and the checker's
/// answer. The floor has other positions and edges too, and racks that stay.
pub fn one_step(random: &mut Random, chains: &[Chain]) -> (timetables::Sample, u64) {
    let n = random.between(chains.iter().map(|chain| chain.size()).sum(), 64);
    let positions = random.distinct(n, n);
    let (mut moves, mut starts, mut edges, mut rest) = (Vec::new(), Vec::new(), Vec::new(), &positions[..]);
    for chain in chains {
        let (along, others) = rest.split_at(chain.size());
        moves.extend(chain.moves(along));
        starts.extend(chain.occupied(along));
        edges.extend(path(along));
        if chain.end == End::Ring || random.one_in(2) {
            edges.push((along[0], along[along.len() - 1])); // a train on a ring, if its leader enters a vacancy
        }
        rest = others;
    }
    starts.extend(rest.iter().filter(|_| random.one_in(2)));
    random.shuffle(&mut starts);
    moves.sort_unstable();
    let floor = with_more_edges(random, n, &edges);
    let goals_are_free = chains.iter().all(|chain| chain.end != End::Standing);
    let order = leading(&floor, starts, if goals_are_free { &moves } else { &[] });
    let (timetable, answer) = among_waiting(random, moves, chains.iter().all(|chain| chain.is_legal()));
    (timetables::Sample { floor, order, timetable }, answer)
}

/// The timetable with up to two steps of waiting on either side of these moves, and the checker's answer.
fn among_waiting(random: &mut Random, moves: Vec<Move>, is_legal: bool) -> (Timetable, u64) {
    let (before, behind) = (random.below(3), random.below(3));
    let mut steps = vec![Step::default(); before + 1 + behind];
    let answer = match is_legal {
        true => (steps.len() as u64) << 8 | (moves.len() as u64) << 30,
        false => refused(42, before as u32 + 1),
    };
    steps[before].moves = moves;
    (Timetable { steps, spare: 0 }, answer)
}

/// The order in which each rack's goal is where it stands after these moves, all made at once.
fn leading(floor: &Floor, starts: Vec<u8>, moves: &[Move]) -> Order {
    let mut racks = Racks::new(floor, &starts);
    racks.make(moves);
    let Floor { n, edges } = floor.clone();
    Order { n, edges, starts, goals: racks.places(), spare: 0, pad: 0 }
}

/// The edges along these positions.
fn path(along: &[u8]) -> impl Iterator<Item = (u8, u8)> + '_ {
    along.windows(2).map(|two| (two[0], two[1]))
}

/// The floor of n positions with these edges, and perhaps some more.
fn with_more_edges(random: &mut Random, n: usize, edges: &[(u8, u8)]) -> Floor {
    let mut more = floors::all_pairs(n);
    random.shuffle(&mut more);
    more.truncate(random.below((MOST_EDGES - edges.len()).min(n) + 1));
    more.extend(edges.iter().map(|&(a, b)| (usize::from(a), usize::from(b))));
    Floor::new(n, more)
}

/// A plan that drives a row of so many racks so many places on, its moves in any order in which they are legal, and the
/// timetable of it.
///
/// The first eight racks of the row go on by one place in each step. "A move that would be ninth goes one step later":
/// there it leads, and the next eight racks are one step behind the first, and so on.
pub fn row(random: &mut Random, length: usize, places: usize) -> (plans::Sample, Timetable) {
    let n = random.between(length + places, 64);
    let positions = random.distinct(n, n);
    let edges: Vec<(u8, u8)> = path(&positions[..length + places]).collect();
    let floor = with_more_edges(random, n, &edges);
    let starts = positions[places..places + length].to_vec();
    let mut order = leading(&floor, starts, &[]);
    order.goals = positions[..length].to_vec();
    let mut steps = vec![Step::default(); places + (length - 1) / LONGEST_TRAIN];
    let mut moves = Vec::new();
    for (index, nth) in in_any_order(random, length, places) {
        let at = places + index - nth;
        let one = (positions[at], positions[at - 1]);
        steps[nth + index / LONGEST_TRAIN].moves.push(one);
        moves.push(one);
    }
    steps.iter_mut().for_each(|step| step.moves.sort_unstable());
    (plans::Sample { floor, order, moves }, Timetable { steps, spare: 0 })
}

/// The moves of a row, each by its rack's index from the front and by how many moves this rack made before it. A rack
/// moves only after the one before it has.
fn in_any_order(random: &mut Random, length: usize, places: usize) -> Vec<(usize, usize)> {
    let mut made = vec![0; length];
    let mut order = Vec::new();
    while order.len() < length * places {
        let index = random.below(length);
        let before = if index == 0 { places } else { made[index - 1] };
        if made[index] < before {
            order.push((index, made[index]));
            made[index] += 1;
        }
    }
    order
}

/// A sound plan on a floor of any shape, with few vacancies.
pub fn plan_in_trains(random: &mut Random) -> plans::Sample {
    let floor = floors::random_floor(random);
    let m = floor.n.saturating_sub(random.between(1, 6));
    let k = random.between(0, 120);
    sound_on(random, floor, m, k)
}

/// A sound plan of so many moves, or of fewer where few racks can move: trains of up to 20 racks, those that could go
/// in one step with their moves mixed, and then others.
pub fn sound_on(random: &mut Random, floor: Floor, m: usize, k: usize) -> plans::Sample {
    let mut order = orders::order_on(random, &floor, m);
    let mut racks = Racks::new(&floor, &order.starts);
    let mut moves = Vec::with_capacity(k);
    let mut tries = 0;
    while moves.len() < k && tries < k {
        tries += 1;
        let trains = racks.random_trains(random, 0, (1, 20));
        let mut mixed = mixed(random, trains);
        mixed.truncate(k - moves.len());
        mixed.iter().for_each(|&one| racks.make(&[one]));
        moves.extend(mixed);
    }
    order.goals = racks.places();
    plans::Sample { floor, order, moves }
}

/// The moves of the trains in one list, those of each train in their order.
fn mixed(random: &mut Random, mut trains: Vec<Vec<Move>>) -> Vec<Move> {
    let mut moves = Vec::new();
    trains.iter_mut().for_each(|train| train.reverse());
    loop {
        trains.retain(|train| !train.is_empty());
        if trains.is_empty() {
            return moves;
        }
        let next = random.below(trains.len());
        moves.extend(trains[next].pop());
    }
}
