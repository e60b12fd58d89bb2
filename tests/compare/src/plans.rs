//! Random plans in both editions, and damage to them.

use crate::cases::{self, Case};
use crate::floors::{self, Floor};
use crate::orders;
use crate::packed::refused;
use crate::racks::{nonempty, only, Racks};
use crate::random::Random;
use crate::write::{Drive, Edition, Move, Order, Plan, EDITIONS};

/// An order and a plan that is accepted, by their fields: racks are moved at random, and their goals are
/// where they then stand.
#[derive(Clone)]
pub struct Sample {
    pub floor: Floor,
    pub order: Order,
    pub moves: Vec<Move>,
}

impl Sample {
    pub fn plan(&self, edition: Edition) -> Plan {
        Plan::new(edition, self.drives())
    }

    /// Each move with the rack that it moves.
    pub fn drives(&self) -> Vec<Drive> {
        let mut racks = Racks::new(&self.floor, &self.order.starts);
        let drive = |&one: &Move| {
            let rack = racks.rack_at[usize::from(one.0)];
            racks.make(&[one]);
            (one, rack)
        };
        self.moves.iter().map(drive).collect()
    }

    /// The arrangement before the move of this index.
    fn before(&self, index: usize) -> Racks {
        let mut racks = Racks::new(&self.floor, &self.order.starts);
        self.moves[..index].iter().for_each(|&one| racks.make(&[one]));
        racks
    }
}

/// A move count: often small, at times none, seldom in the thousands.
fn random_move_count(random: &mut Random) -> usize {
    match random.below(64) {
        0 => random.between(300, 3000),
        1..=6 => random.between(64, 300),
        7..=12 => 0,
        13..=30 => random.between(1, 4),
        _ => random.between(5, 64),
    }
}

pub fn random_sound(random: &mut Random) -> Sample {
    let floor = floors::random_floor(random);
    let m = orders::random_rack_count(random, floor.n);
    let k = random_move_count(random);
    sound_on(random, floor, m, k)
}

/// A sound plan of so many moves, or of none where no rack can move.
pub fn sound_on(random: &mut Random, floor: Floor, m: usize, k: usize) -> Sample {
    let mut order = orders::order_on(random, &floor, m);
    let mut racks = Racks::new(&floor, &order.starts);
    let mut moves = Vec::with_capacity(k);
    while moves.len() < k {
        let Some(one) = racks.random_move(random) else { break };
        racks.make(&[one]);
        moves.push(one);
    }
    order.goals = racks.places();
    Sample { floor, order, moves }
}

/// A plan in which a rack drives alone for a while, and then another one: up to so many moves in all, each drive of so
/// many at most. Moves that stand side by side in the plan may then go into steps that are far apart.
pub fn in_drives(random: &mut Random, floor: Floor, m: usize, parts: &[(usize, usize)]) -> Sample {
    let mut order = orders::order_on(random, &floor, m);
    let mut racks = Racks::new(&floor, &order.starts);
    let mut moves = vec![];
    for &(k, longest) in parts {
        while moves.len() < k {
            let mut one = racks.random_move(random).expect("some rack can move");
            for _ in 0..random.between(1, longest).min(k - moves.len()) {
                racks.make(&[one]);
                moves.push(one);
                // the position just left is vacant, so there is one to go to
                one = (one.1, random.member(racks.joined(one.1) & racks.vacant()));
            }
        }
    }
    order.goals = racks.places();
    Sample { floor, order, moves }
}

/// Rack 1 goes to and fro between two positions.
pub fn to_and_fro(k: usize) -> Sample {
    let floor = Floor::new(2, [(0, 1)]);
    let (edges, goals) = (floor.edges.clone(), vec![(k % 2) as u8]);
    let order = Order { n: 2, edges, starts: vec![0], goals, spare: 0, pad: 0 };
    let moves = (0..k).map(|index| [(0, 1), (1, 0)][index % 2]).collect();
    Sample { floor, order, moves }
}

kinds! {
    pub enum Damage in DAMAGES {
        None,
        Order,
        Cut,
        Extended,
        CountChanged,
        SpareSet,
        EditionChanged,
        PadSet,
        BitFlipped,
        Noise,
        MoveChanged,
        OutOfRange,
        ToItself,
        NotJoined,
        NotJoinedFromVacant,
        FromVacant,
        FromVacantIntoStanding,
        IntoStanding,
        RackWrong,
        RackAboveM,
        MoveRepeated,
        MoveLeftOut,
        GoalsExchanged,
        GoalElsewhere,
    }
}

impl Damage {
    /// Whether a plan of this edition can have it: in edition one no rack is written.
    pub fn fits(self, edition: Edition) -> bool {
        edition == Edition::Two || !matches!(self, Damage::RackWrong | Damage::RackAboveM)
    }
}

/// Every damage in each edition that can have it.
pub fn kinds() -> Vec<(Edition, Damage)> {
    let all = EDITIONS.iter().flat_map(|&edition| DAMAGES.map(|damage| (edition, damage)));
    all.filter(|(edition, damage)| damage.fits(*edition)).collect()
}

/// The damages that make a move illegal at its turn, and the number that it then meets. Of two that apply to
/// one move it is the lower.
pub const ILLEGAL: [(Damage, u8); 7] = [
    (Damage::OutOfRange, 32),
    (Damage::ToItself, 32),
    (Damage::NotJoined, 32),
    (Damage::NotJoinedFromVacant, 32), // and 34
    (Damage::FromVacant, 34),
    (Damage::FromVacantIntoStanding, 34), // and 35
    (Damage::IntoStanding, 35),
];

/// The number that a move illegal for this reason meets.
pub fn illegal_number(reason: Damage) -> u8 {
    ILLEGAL.iter().find(|(damage, _)| *damage == reason).expect("it makes a move illegal").1
}

kinds! {
    /// Where a move stands in its plan.
    pub enum Place in PLACES {
        First,
        Middle,
        Last,
    }
}

/// The rack that is written with a move: in edition one none, in edition two the one at the position left,
/// another, or one that the order has not. Where no rack stands, none is right.
#[derive(Clone, Copy, Debug, PartialEq, Eq)]
pub enum Written {
    Unwritten,
    Right,
    Wrong,
    AboveM,
}

/// The rack of this kind that is written with a move from the position left, if there is one.
fn written_rack(random: &mut Random, racks: &Racks, left: u8, written: Written) -> Option<u8> {
    let there = racks.rack_at[usize::from(left)];
    let m = racks.occupied.count_ones() as usize;
    let such: Vec<u8> = match written {
        Written::Unwritten => vec![1], // of which no bit stands in the record
        Written::Right => (1..=64).filter(|&rack| rack == there).collect(),
        Written::Wrong => (1..=m as u8).filter(|&rack| rack != there).collect(),
        Written::AboveM => (m as u8 + 1..=64).collect(),
    };
    nonempty(such.len() as u64)?;
    Some(random.pick(&such))
}

/// A move that is not as it has to be: illegal at its turn for a reason, or with a rack written that is not the one
/// there, or both.
#[derive(Clone, Copy, Debug)]
pub struct Bad {
    pub reason: Option<Damage>,
    pub written: Written,
}

impl Bad {
    /// The number that it meets: 36 is tested after all reasons "for the same move".
    pub fn number(self) -> u8 {
        self.reason.map_or(36, illegal_number)
    }

    pub fn edition(self) -> Edition {
        match self.written {
            Written::Unwritten => Edition::One,
            _ => Edition::Two,
        }
    }

    /// Such a move on the arrangement, with its rack.
    fn drive(self, random: &mut Random, racks: &Racks) -> Option<Drive> {
        let one = match self.reason {
            Some(reason) => illegal_move(random, racks, reason)?,
            None => racks.random_move(random)?,
        };
        Some((one, written_rack(random, racks, one.0, self.written)?))
    }
}

/// The plan with one more move at the place, a bad one, and if `later` is there another behind it. The first
/// decides. A goal that is missed too comes after both.
pub fn with_bad_moves(
    random: &mut Random,
    sound: &Sample,
    place: Place,
    (first, later): (Bad, Option<Bad>),
    goal_missed: bool,
) -> Option<Case> {
    let (mut order, mut plan) = (sound.order.clone(), sound.plan(first.edition()));
    let k = plan.drives.len();
    nonempty(k.saturating_sub(1) as u64)?; // there is a middle
    let index = match place {
        Place::First => 0,
        Place::Middle => random.between(1, k - 1),
        Place::Last => k,
    };
    if let Some(later) = later {
        let behind = if random.one_in(2) { k } else { random.between(index, k) };
        plan.drives.insert(behind, later.drive(random, &sound.before(behind))?);
    }
    plan.drives.insert(index, first.drive(random, &sound.before(index))?);
    if goal_missed {
        let exchange = random.one_in(2);
        damage_goals(random, &mut order, exchange)?;
    }
    let answer = Some(refused(first.number(), index as u32 + 1));
    Some(Case { order: order.record(), record: plan.record(), answer })
}

/// A case with a random damage, in either edition.
pub fn random_case(random: &mut Random) -> ((Edition, Damage), Case) {
    let edition = random.pick(&EDITIONS);
    let damaged = |random: &mut Random, sound: &Sample, damage: Damage| match damage.fits(edition) {
        true => damaged(random, sound, edition, damage),
        false => None,
    };
    let (damage, case) = cases::random_case(random, &DAMAGES, random_sound, damaged);
    ((edition, damage), case)
}

/// The plan in this edition with the damage, if it has what is to be damaged.
pub fn damaged(random: &mut Random, sound: &Sample, edition: Edition, damage: Damage) -> Option<Case> {
    let mut order = sound.order.clone();
    let mut plan = sound.plan(edition);
    let k = plan.drives.len();
    let accepted = (k as u64) << 8;
    let answer = match damage {
        Damage::None => accepted,
        Damage::Order => return Some(cases::order_damaged(random, &order, plan.record())),
        Damage::Cut | Damage::Extended | Damage::BitFlipped | Damage::Noise => {
            let (record, answer) = damage_bytes(random, plan.record(), damage);
            return Some(Case { order: order.record(), record, answer });
        }
        Damage::CountChanged => {
            let mut record = plan.record();
            change_count(random, &mut record, k);
            return Some(Case { order: order.record(), record, answer: Some(30) });
        }
        Damage::SpareSet => set_spare(random, &mut plan),
        Damage::EditionChanged => {
            plan.spare = edition.other().spare();
            match k {
                0 => accepted, // no moves are as long in both
                _ => 30,
            }
        }
        Damage::PadSet => {
            nonempty(plan.pad_width() as u64)?;
            plan.pad = random.between(1, (1 << plan.pad_width()) - 1) as u8;
            31
        }
        Damage::MoveChanged => {
            nonempty(k as u64)?;
            plan.drives[random.below(k)].0 = (random.below(64) as u8, random.below(64) as u8);
            return Some(Case { order: order.record(), record: plan.record(), answer: None });
        }
        Damage::OutOfRange
        | Damage::ToItself
        | Damage::NotJoined
        | Damage::NotJoinedFromVacant
        | Damage::FromVacant
        | Damage::FromVacantIntoStanding
        | Damage::IntoStanding => {
            let index = random.between(0, k);
            // the rack written is any, at times the one there
            let one = (illegal_move(random, &sound.before(index), damage)?, random.between(1, 64) as u8);
            match index < k && random.one_in(2) {
                true => plan.drives[index] = one,
                false => plan.drives.insert(index, one),
            }
            match random.one_in(16) {
                true => set_spare(random, &mut plan), // the lower number
                false => refused(illegal_number(damage), index as u32 + 1),
            }
        }
        Damage::RackWrong | Damage::RackAboveM => {
            nonempty(k as u64)?;
            let index = random.below(k);
            let written = if damage == Damage::RackWrong { Written::Wrong } else { Written::AboveM };
            let (left, _) = plan.drives[index].0;
            plan.drives[index].1 = written_rack(random, &sound.before(index), left, written)?;
            match random.below(16) {
                0 => set_spare(random, &mut plan), // the lower number
                1..=4 => {
                    damage_goals(random, &mut order, false)?;
                    refused(36, index as u32 + 1) // the goals come after it
                }
                _ => refused(36, index as u32 + 1),
            }
        }
        Damage::MoveRepeated => {
            nonempty(k as u64)?;
            let index = random.below(k);
            plan.drives.insert(index, plan.drives[index]);
            refused(34, index as u32 + 2) // its rack stands where it enters, so 35 applies too
        }
        Damage::MoveLeftOut => {
            nonempty(k as u64)?;
            let last = sound.before(k - 1);
            let ((left, _), _) = plan.drives.pop()?;
            refused(33, u32::from(last.rack_at[usize::from(left)]))
        }
        Damage::GoalsExchanged | Damage::GoalElsewhere => {
            let rack = damage_goals(random, &mut order, damage == Damage::GoalsExchanged)?;
            refused(33, rack)
        }
    };
    Some(Case { order: order.record(), record: plan.record(), answer: Some(answer) })
}

/// Sets the spare bits to 10 or 11: the number that the plan then meets. "10 or 11 meet 31, their length being
/// judged by 30 as edition one."
fn set_spare(random: &mut Random, plan: &mut Plan) -> u64 {
    plan.spare = random.between(2, 3) as u8;
    match plan.edition == Edition::One || plan.drives.is_empty() {
        true => 31,
        false => 30,
    }
}

/// Damage to a record's bytes, and the number it then meets, where that is certain.
fn damage_bytes(random: &mut Random, mut bytes: Vec<u8>, damage: Damage) -> (Vec<u8>, Option<u64>) {
    match damage {
        Damage::Cut => {
            bytes.truncate(random.below(bytes.len()));
            (bytes, Some(30))
        }
        Damage::Extended => {
            let length = random.between(1, 5);
            bytes.extend(random.bytes(length));
            (bytes, Some(30))
        }
        Damage::BitFlipped => {
            orders::flip(random, &mut bytes);
            (bytes, None)
        }
        _ => {
            let length = random.below(40);
            (random.bytes(length), None)
        }
    }
}

/// Writes another count over the first 22 bits, and leaves the spare bits as they are.
pub fn change_count(random: &mut Random, bytes: &mut [u8], count: usize) {
    let other = match random.below(4) {
        0 => count + 1,
        1 => count.wrapping_sub(1),
        2 => (1 << 22) - 1,
        _ => random.below(1 << 22),
    };
    let other = if other & 0x3F_FFFF == count { count + 1 } else { other };
    let head = (other as u32) << 2 | u32::from(bytes[2] & 0b11);
    bytes[..3].copy_from_slice(&head.to_be_bytes()[1..]);
}

/// A move that is illegal on the arrangement, for this reason.
fn illegal_move(random: &mut Random, racks: &Racks, reason: Damage) -> Option<Move> {
    match reason {
        Damage::ToItself => {
            let position = random.member(racks.vacant() | racks.occupied);
            Some((position, position))
        }
        Damage::NotJoined => racks.move_apart(random),
        Damage::NotJoinedFromVacant => {
            let left = random.member(nonempty(racks.vacant())?);
            let apart = (racks.vacant() | racks.occupied) & !racks.joined(left);
            Some((left, random.member(apart)))
        }
        Damage::FromVacant => {
            let left = random.member(nonempty(racks.vacant())?);
            Some((left, random.member(nonempty(racks.joined(left) & racks.vacant())?)))
        }
        Damage::FromVacantIntoStanding => {
            let left = random.member(nonempty(racks.vacant())?);
            Some((left, random.member(nonempty(racks.joined(left) & racks.occupied)?)))
        }
        Damage::IntoStanding => {
            let left = random.member(nonempty(racks.occupied)?);
            Some((left, random.member(nonempty(racks.joined(left) & racks.occupied)?)))
        }
        _ => racks.move_outside(random),
    }
}

/// Exchanges two racks' goals, or puts one rack's goal where no rack ends. The lowest rack that is then
/// not at its goal.
pub fn damage_goals(random: &mut Random, order: &mut Order, exchange: bool) -> Option<u32> {
    let m = order.goals.len();
    if exchange {
        nonempty(m.saturating_sub(1) as u64)?;
        let two = random.distinct(2, m);
        order.goals.swap(usize::from(two[0]), usize::from(two[1]));
        return Some(u32::from(two[0].min(two[1])) + 1);
    }
    nonempty(m as u64)?;
    let taken = order.goals.iter().fold(0, |set, &goal| set | only(goal));
    let free = u64::MAX >> (64 - order.n) & !taken;
    let rack = random.below(m);
    order.goals[rack] = random.member(nonempty(free)?);
    Some(rack as u32 + 1)
}
