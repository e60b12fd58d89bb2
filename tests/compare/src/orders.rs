//! Random orders, and damage to them.

use crate::floors::{self, Floor, MOST_EDGES};
use crate::random::Random;
use crate::write::Order;

/// A rack count for n positions: none, all, all but one or two, or any.
pub fn random_rack_count(random: &mut Random, n: usize) -> usize {
    match random.below(8) {
        0 => 0,
        1 => n,
        2 => n - 1,
        3 => n.saturating_sub(2),
        _ => random.between(0, n),
    }
}

/// A well-formed order on the floor, starts and goals at random.
pub fn order_on(random: &mut Random, floor: &Floor, m: usize) -> Order {
    let Floor { n, edges } = floor.clone();
    Order { n, edges, starts: random.distinct(m, n), goals: random.distinct(m, n), spare: 0, pad: 0 }
}

/// A well-formed order on a floor of any shape.
pub fn random_order(random: &mut Random) -> Order {
    let floor = floors::random_floor(random);
    let m = random_rack_count(random, floor.n);
    order_on(random, &floor, m)
}

kinds! {
    /// What is done to a well-formed order.
    pub enum Damage in DAMAGES {
        Cut,
        Extended,
        BitFlipped,
        Noise,
        NoiseAfterHead,
        NoPosition,
        TooManyPositions,
        SpareSet,
        PadSet,
        EdgesSwapped,
        EdgeRepeated,
        EdgeLooped,
        EdgeTurned,
        EdgeOutOfRange,
        StartShared,
        GoalShared,
        StartOutOfRange,
        GoalOutOfRange,
        TooManyRacks,
    }
}

impl Damage {
    /// Whether the order has what is to be damaged.
    fn fits(self, order: &Order) -> bool {
        let (n, e, m) = (order.n, order.edges.len(), order.starts.len());
        match self {
            Damage::PadSet => order.has_pad(),
            Damage::EdgesSwapped | Damage::EdgeRepeated => e >= 2,
            Damage::EdgeLooped | Damage::EdgeTurned => e >= 1,
            Damage::EdgeOutOfRange => e >= 1 && n < 64,
            Damage::StartShared | Damage::GoalShared => m >= 2,
            Damage::StartOutOfRange | Damage::GoalOutOfRange => m >= 1 && n < 64,
            _ => true,
        }
    }

    /// The number that a well-formed order meets with this damage alone, where it is certain.
    pub fn number(self) -> Option<u8> {
        match self {
            Damage::BitFlipped | Damage::Noise | Damage::NoiseAfterHead => None,
            Damage::Cut | Damage::Extended => Some(10),
            Damage::NoPosition | Damage::TooManyPositions => Some(11),
            Damage::SpareSet | Damage::PadSet => Some(12),
            Damage::EdgesSwapped
            | Damage::EdgeRepeated
            | Damage::EdgeLooped
            | Damage::EdgeTurned
            | Damage::EdgeOutOfRange => Some(13),
            Damage::StartShared
            | Damage::GoalShared
            | Damage::StartOutOfRange
            | Damage::GoalOutOfRange
            | Damage::TooManyRacks => Some(14),
        }
    }

    /// Damages the fields.
    fn damage_fields(self, random: &mut Random, order: &mut Order) {
        let n = order.n;
        let (e, m) = (order.edges.len(), order.starts.len());
        match self {
            Damage::NoPosition => order.n = 0,
            Damage::TooManyPositions => order.n = random.between(65, 127),
            Damage::SpareSet => order.spare = random.between(1, 3) as u8,
            Damage::PadSet => order.pad = random.between(1, 15) as u8,
            Damage::EdgesSwapped => {
                let two = random.distinct(2, e);
                order.edges.swap(usize::from(two[0]), usize::from(two[1]));
            }
            Damage::EdgeRepeated => {
                let edge = random.pick(&order.edges);
                match e < MOST_EDGES && random.one_in(2) {
                    true => order.edges.insert(random.between(0, e), edge),
                    false => {
                        let two = random.distinct(2, e);
                        order.edges[usize::from(two[0])] = order.edges[usize::from(two[1])];
                    }
                }
            }
            Damage::EdgeLooped => {
                let edge = &mut order.edges[random.below(e)];
                edge.1 = edge.0;
            }
            Damage::EdgeTurned => {
                let edge = &mut order.edges[random.below(e)];
                *edge = (edge.1, edge.0);
            }
            Damage::EdgeOutOfRange => order.edges[random.below(e)].1 = random.between(n, 63) as u8,
            Damage::StartShared => share(random, &mut order.starts),
            Damage::GoalShared => share(random, &mut order.goals),
            Damage::StartOutOfRange => order.starts[random.below(m)] = random.between(n, 63) as u8,
            Damage::GoalOutOfRange => order.goals[random.below(m)] = random.between(n, 63) as u8,
            Damage::TooManyRacks => {
                let m = random.between(n + 1, 127);
                order.starts = (0..m).map(|rack| (rack % n) as u8).collect();
                order.goals = (0..m).map(|_| random.below(n) as u8).collect();
            }
            _ => {}
        }
    }

    /// Damages the bytes.
    fn damage_bytes(self, random: &mut Random, record: &mut Vec<u8>) {
        match self {
            Damage::Cut => record.truncate(random.below(record.len())),
            Damage::Extended => {
                let length = random.between(1, 9);
                record.extend(match random.one_in(2) {
                    true => vec![0; length],
                    false => random.bytes(length),
                });
            }
            Damage::BitFlipped => flip(random, record),
            Damage::Noise => {
                let length = random.below(64);
                *record = random.bytes(length);
            }
            Damage::NoiseAfterHead => random.fill(&mut record[3..]),
            _ => {}
        }
    }
}

/// Gives one rack the place of another.
fn share(random: &mut Random, places: &mut [u8]) {
    let two = random.distinct(2, places.len());
    places[usize::from(two[0])] = places[usize::from(two[1])];
}

/// Flips one bit.
pub fn flip(random: &mut Random, record: &mut [u8]) {
    if !record.is_empty() {
        record[random.below(record.len())] ^= 1 << random.below(8);
    }
}

/// A damage that the order has room for.
pub fn random_damage(random: &mut Random, order: &Order) -> Damage {
    loop {
        let damage = random.pick(&DAMAGES);
        if damage.fits(order) {
            return damage;
        }
    }
}

/// The record of the order with one damage.
pub fn damaged(random: &mut Random, order: &Order, damage: Damage) -> Vec<u8> {
    let mut fields = order.clone();
    damage.damage_fields(random, &mut fields);
    let mut record = fields.record();
    damage.damage_bytes(random, &mut record);
    record
}

/// The record of the order with several damages, so that the lowest number has to be found.
pub fn damaged_often(random: &mut Random, order: &Order) -> Vec<u8> {
    let mut fields = order.clone();
    let mut on_bytes = Vec::new();
    for _ in 0..random.between(2, 4) {
        let damage = random_damage(random, order);
        // n is 0 or above 64 now: the other damages have their places already
        if (1..=64).contains(&fields.n) && damage.fits(&fields) {
            damage.damage_fields(random, &mut fields);
        }
        on_bytes.push(damage);
    }
    let mut record = fields.record();
    for damage in on_bytes {
        if record.len() > 3 {
            damage.damage_bytes(random, &mut record);
        }
    }
    record
}
