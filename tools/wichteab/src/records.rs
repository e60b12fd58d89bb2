//! Records as values: what an order, a short order, a plan and a timetable say. They are read from bytes whose form
//! the library has accepted, and nothing is judged here.

use crate::bits::{field, Writer};

/// A floor, and each rack's start and goal. Rack r stands at index r - 1.
#[derive(Clone, PartialEq, Eq, Debug, Default)]
pub struct Order {
    pub positions: usize,
    pub edges: Vec<(usize, usize)>,
    pub starts: Vec<usize>,
    pub goals: Vec<usize>,
}

/// An order on the floor of a model.
#[derive(Clone, PartialEq, Eq, Debug, Default)]
pub struct ShortOrder {
    pub model: usize,
    pub starts: Vec<usize>,
    pub goals: Vec<usize>,
}

/// Moves one at a time. Edition two names the rack of each; in edition one there are no racks.
#[derive(Clone, PartialEq, Eq, Debug, Default)]
pub struct Plan {
    pub edition: usize,
    pub moves: Vec<(usize, usize)>,
    pub racks: Vec<usize>,
}

/// Moves made at once: the position left, the position entered.
pub type Step = Vec<(usize, usize)>;

/// Steps one after another.
#[derive(Clone, PartialEq, Eq, Debug, Default)]
pub struct Timetable {
    pub steps: Vec<Step>,
}

/// Largest numbers that an order's fields hold.
pub const MOST_POSITIONS: usize = 127;
pub const MOST_EDGES: usize = 255;
pub const MOST_RACKS: usize = 127;
pub const HIGHEST_POSITION: usize = 63;
pub const HIGHEST_MODEL: usize = 255;

/// The bits of a position, and of a record's first part: an order's counts, a plan's or timetable's count.
const POSITION: usize = 6;
const HEAD: usize = 24;

/// The bytes that so many moves of 12 bits take, with their pad.
pub fn packed_length(moves: usize) -> usize {
    (12 * moves).div_ceil(8)
}

fn pairs(bytes: &[u8], first: usize, count: usize) -> Vec<(usize, usize)> {
    let pair = |at| (field(bytes, at, POSITION), field(bytes, at + POSITION, POSITION));
    (0..count).map(|index| pair(first + 2 * POSITION * index)).collect()
}

fn places(bytes: &[u8], first: usize, count: usize) -> Vec<usize> {
    (0..count).map(|index| field(bytes, first + POSITION * index, POSITION)).collect()
}

fn put_places(writer: &mut Writer, starts: &[usize], goals: &[usize]) {
    for &place in starts.iter().chain(goals) {
        writer.put(place, POSITION);
    }
}

/// Positions, edges and racks, by the first three bytes.
pub fn order_counts(bytes: &[u8]) -> (usize, usize, usize) {
    (field(bytes, 0, 7), field(bytes, 7, 8), field(bytes, 15, 7))
}

impl Order {
    /// What the bytes say, whose length is the one that their counts give.
    pub fn of_record(bytes: &[u8]) -> Order {
        let (positions, edges, racks) = order_counts(bytes);
        let starts = HEAD + 2 * POSITION * edges;
        Order {
            positions,
            edges: pairs(bytes, HEAD, edges),
            starts: places(bytes, starts, racks),
            goals: places(bytes, starts + POSITION * racks, racks),
        }
    }

    /// The record. Every number has to fit its field.
    pub fn record(&self) -> Vec<u8> {
        let mut writer = Writer::default();
        writer.put(self.positions, 7);
        writer.put(self.edges.len(), 8);
        writer.put(self.starts.len(), 7);
        writer.put(0, 2);
        for &(lower, higher) in &self.edges {
            writer.put(lower, POSITION);
            writer.put(higher, POSITION);
        }
        put_places(&mut writer, &self.starts, &self.goals);
        writer.record()
    }
}

impl ShortOrder {
    /// What the bytes say, whose length is the one that their count gives.
    pub fn of_record(bytes: &[u8]) -> ShortOrder {
        let racks = field(bytes, 8, 7);
        ShortOrder {
            model: field(bytes, 0, 8),
            starts: places(bytes, 16, racks),
            goals: places(bytes, 16 + POSITION * racks, racks),
        }
    }

    /// The record. Every number has to fit its field.
    pub fn record(&self) -> Vec<u8> {
        let mut writer = Writer::default();
        writer.put(self.model, 8);
        writer.put(self.starts.len(), 7);
        writer.put(0, 1);
        put_places(&mut writer, &self.starts, &self.goals);
        writer.record()
    }
}

/// The edition of a plan of at least three bytes, by its spare bits.
pub fn plan_edition(bytes: &[u8]) -> usize {
    if bytes[2] & 3 == 1 {
        2
    } else {
        1
    }
}

/// The count of moves or steps that a plan or timetable of at least three bytes begins with.
pub fn count(bytes: &[u8]) -> usize {
    field(bytes, 0, 22)
}

/// The length of a plan of so many moves.
pub fn plan_length(edition: usize, moves: usize) -> usize {
    let width = if edition == 2 { 18 } else { 12 };
    3 + (width * moves).div_ceil(8)
}

impl Plan {
    /// What the bytes say, whose length is the one that their count gives.
    pub fn of_record(bytes: &[u8]) -> Plan {
        let (edition, count) = (plan_edition(bytes), count(bytes));
        if edition == 1 {
            return Plan { edition, moves: pairs(bytes, HEAD, count), racks: Vec::new() };
        }
        let at = |index| HEAD + 3 * POSITION * index;
        Plan {
            edition,
            moves: (0..count).flat_map(|index| pairs(bytes, at(index), 1)).collect(),
            racks: (0..count).map(|index| field(bytes, at(index) + 2 * POSITION, POSITION) + 1).collect(),
        }
    }
}

/// The moves of a step, from its count byte on.
pub fn step_of_record(bytes: &[u8]) -> Step {
    pairs(&bytes[1..], 0, usize::from(bytes[0]))
}

impl Timetable {
    /// What the bytes say, whose steps end with them.
    pub fn of_record(bytes: &[u8]) -> Timetable {
        let mut rest = &bytes[3..];
        let mut steps = Vec::new();
        for _ in 0..count(bytes) {
            steps.push(step_of_record(rest));
            rest = &rest[1 + packed_length(usize::from(rest[0]))..];
        }
        Timetable { steps }
    }

    /// The moves of all steps.
    pub fn moves(&self) -> usize {
        self.steps.iter().map(Vec::len).sum()
    }
}
