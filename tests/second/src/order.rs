//! "**Order**: n in 7 bits, edge count e in 8, m in 7, two spare zero bits; e edges, each lower
//! position first, strictly ascending; m starts; m goals; pad."

use crate::answer::{refuse, Answer};
use crate::record::{head, packed_length, pad_is_set, pair, positions, spare_is_set};

/// The counts of an order: n positions, e edges, m racks.
#[derive(Clone, Copy, PartialEq, Eq, Debug)]
pub struct Counts {
    pub n: usize,
    pub e: usize,
    pub m: usize,
}

/// "A floor has n positions, numbered from 0, and edges between pairs of them."
#[derive(Clone)]
pub struct Floor {
    pub n: usize,
    pub e: usize,
    /// Bit b of the number at a is set if an edge joins a and b, whichever is lower.
    pub neighbours: [u64; 64],
}

/// "An order gives each rack a start and a goal." Rack r stands at index r - 1.
#[derive(Clone)]
pub struct Order {
    pub floor: Floor,
    pub m: usize,
    pub starts: [u8; 64],
    pub goals: [u8; 64],
}

impl Floor {
    /// Whether an edge joins the two positions.
    #[inline]
    pub fn joined(&self, a: usize, b: usize) -> bool {
        self.neighbours[a] >> b & 1 == 1
    }
}

impl Order {
    /// The starts, rack 1 first.
    pub fn starts(&self) -> &[u8] {
        &self.starts[..self.m]
    }

    /// The goals, rack 1 first.
    pub fn goals(&self) -> &[u8] {
        &self.goals[..self.m]
    }
}

/// The counts that a head gives, sound or not.
fn counts(head: u32) -> Counts {
    Counts { n: (head >> 17) as usize, e: (head >> 9 & 0xFF) as usize, m: (head >> 2 & 0x7F) as usize }
}

/// Where the order ends that the record begins with, by its counts; none if it is under 3 bytes.
/// "The length is 3 bytes plus 12 × (e + m) bits rounded up to bytes."
pub fn length(record: &[u8]) -> Option<usize> {
    let Counts { e, m, .. } = counts(head(record)?);
    Some(3 + packed_length(e + m))
}

/// The lowest of 10 to 14 that applies, else the counts.
pub fn check(record: &[u8]) -> Answer<Counts> {
    // 10: "order under 3 bytes, or its length is not the one its counts give"
    let Some(head) = head(record) else { return refuse(10) };
    let counts = counts(head);
    let Counts { n, e, m } = counts;
    let body = &record[3..];
    if body.len() != packed_length(e + m) {
        return refuse(10);
    }
    // 11: "n is 0 or above 64"
    if n == 0 || n > 64 {
        return refuse(11);
    }
    // 12: "a spare or pad bit of the order is set"
    if spare_is_set(head) || pad_is_set(body, e + m) {
        return refuse(12);
    }
    if !edges_are_sound(body, n, e) {
        return refuse(13);
    }
    // Starts and goals are one list of 2m positions.
    let racks = |from, to| (from..to).map(move |i| position(body, 2 * e + i));
    if !places_are_sound(racks(0, m), n) || !places_are_sound(racks(m, 2 * m), n) {
        return refuse(14);
    }
    Ok(counts)
}

/// 13: "an edge has a position of n or more, is not lower first, or does not ascend"
fn edges_are_sound(body: &[u8], n: usize, e: usize) -> bool {
    // The pair 0-0 comes before every edge that has its lower position first.
    let mut previous = 0;
    for index in 0..e {
        let edge = pair(body, index);
        let (lower, higher) = positions(edge);
        if higher >= n || lower >= higher || edge <= previous {
            return false;
        }
        previous = edge;
    }
    true
}

/// 14: "a start or goal is n or more, or two racks share a start or share a goal", for either list.
fn places_are_sound(list: impl Iterator<Item = usize>, n: usize) -> bool {
    let mut taken = 0u64;
    for place in list {
        if place >= n || taken >> place & 1 == 1 {
            return false;
        }
        taken |= 1 << place;
    }
    true
}

/// The position at this place of the body, counted from 0 and with an edge as two.
fn position(body: &[u8], index: usize) -> usize {
    let (first, second) = positions(pair(body, index / 2));
    [first, second][index % 2]
}

/// The order that the record describes, or the refusal.
pub fn read(record: &[u8]) -> Answer<Order> {
    let Counts { n, e, m } = check(record)?;
    let body = &record[3..];
    let mut neighbours = [0; 64];
    for index in 0..e {
        let (lower, higher) = positions(pair(body, index));
        neighbours[lower] |= 1 << higher;
        neighbours[higher] |= 1 << lower;
    }
    let (mut starts, mut goals) = ([0; 64], [0; 64]);
    for rack in 0..m {
        starts[rack] = position(body, 2 * e + rack) as u8;
        goals[rack] = position(body, 2 * e + m + rack) as u8;
    }
    Ok(Order { floor: Floor { n, e, neighbours }, m, starts, goals })
}
