//! Short orders on the models' floors, and damage to them.

use crate::random::Random;
use crate::write::ShortOrder;

/// The models that are sold: code, rows, columns.
pub const MODELS: [(u8, usize, usize); 5] = [(1, 2, 3), (2, 3, 4), (3, 4, 4), (4, 4, 5), (5, 8, 8)];

/// A sound short order of m racks for a model of n positions.
pub fn short_order(random: &mut Random, model: u8, n: usize, m: usize) -> ShortOrder {
    ShortOrder { model, starts: random.distinct(m, n), goals: random.distinct(m, n), spare: 0, pad: 0 }
}

kinds! {
    /// What is done to a sound short order, or to the buffer lent with it.
    pub enum Damage in DAMAGES {
        Cut,
        Extended,
        SpareSet,
        PadSet,
        ModelUnknown,
        StartShared,
        GoalShared,
        StartOutOfRange,
        GoalOutOfRange,
        BufferShort,
    }
}

impl Damage {
    /// The number that it meets alone.
    pub fn number(self) -> u8 {
        match self {
            Damage::Cut | Damage::Extended | Damage::SpareSet | Damage::PadSet => 50,
            Damage::ModelUnknown => 51,
            Damage::StartShared | Damage::GoalShared | Damage::StartOutOfRange | Damage::GoalOutOfRange => 14,
            Damage::BufferShort => 52,
        }
    }

    /// The place of its number in the order of the tests.
    pub fn turn(self) -> usize {
        [50, 51, 14, 52].iter().position(|&number| number == self.number()).expect("one of the four")
    }

    /// Whether a short order of m racks on n positions has what is to be damaged.
    pub fn fits(self, n: usize, m: usize) -> bool {
        match self {
            Damage::PadSet => m % 2 == 1,
            Damage::StartShared | Damage::GoalShared => m >= 2,
            Damage::StartOutOfRange | Damage::GoalOutOfRange => m >= 1 && n < 64,
            _ => true,
        }
    }

    /// Does it to the fields, where it is a matter of fields.
    fn to_fields(self, random: &mut Random, order: &mut ShortOrder, n: usize) {
        let m = order.starts.len();
        match self {
            Damage::SpareSet => order.spare = 1,
            Damage::PadSet => order.pad = random.between(1, 15) as u8,
            Damage::ModelUnknown => {
                order.model =
                    if random.one_in(2) { random.pick(&[0, 6]) } else { random.between(6, 255) as u8 };
            }
            Damage::StartShared => share(random, &mut order.starts),
            Damage::GoalShared => share(random, &mut order.goals),
            Damage::StartOutOfRange => order.starts[random.below(m)] = random.between(n, 63) as u8,
            Damage::GoalOutOfRange => order.goals[random.below(m)] = random.between(n, 63) as u8,
            Damage::Cut | Damage::Extended | Damage::BufferShort => {}
        }
    }
}

/// Two racks at one place.
fn share(random: &mut Random, places: &mut [u8]) {
    let rack = random.below(places.len());
    let other = (rack + random.between(1, places.len() - 1)) % places.len();
    places[rack] = places[other];
}

/// A short order with all these damages, and how long a buffer is lent with it; the full record has this
/// length.
pub fn damaged(
    random: &mut Random,
    sound: &ShortOrder,
    n: usize,
    full_length: usize,
    damages: &[Damage],
) -> (Vec<u8>, usize) {
    let mut order = sound.clone();
    for damage in damages {
        damage.to_fields(random, &mut order, n);
    }
    let mut record = order.record();
    let mut lent = full_length + random.below(3);
    for damage in damages {
        match damage {
            Damage::Cut => record.truncate(random.below(record.len())),
            Damage::Extended => {
                let behind = random.between(1, 3);
                record.extend(random.bytes(behind));
            }
            Damage::BufferShort => {
                let any = random.below(full_length);
                lent = random.pick(&[0, full_length - 1, any]);
            }
            _ => {}
        }
    }
    (record, lent)
}
