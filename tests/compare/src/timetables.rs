//! Random timetables, and damage to them.

use crate::cases::{self, Case};
use crate::floors::{self, Floor};
use crate::orders;
use crate::packed::refused;
use crate::plans::{change_count, damage_goals};
use crate::racks::{nonempty, only, Racks, LONGEST_TRAIN};
use crate::random::Random;
use crate::write::{Move, Order, Step, Timetable};

/// An order and a timetable, by their fields. A random one is accepted: trains of at most eight are moved at
/// random, and the racks' goals are where they then stand.
#[derive(Clone)]
pub struct Sample {
    pub floor: Floor,
    pub order: Order,
    pub timetable: Timetable,
}

impl Sample {
    /// The arrangement before the step of this index.
    fn before(&self, index: usize) -> Racks {
        let mut racks = Racks::new(&self.floor, &self.order.starts);
        self.timetable.steps[..index].iter().for_each(|step| racks.make(&step.moves));
        racks
    }
}

/// A step count: often small, at times none, seldom in the hundreds.
fn random_step_count(random: &mut Random) -> usize {
    match random.below(64) {
        0 => random.between(100, 1000),
        1..=4 => 0,
        5..=30 => random.between(1, 3),
        _ => random.between(4, 30),
    }
}

pub fn random_sound(random: &mut Random) -> Sample {
    let floor = floors::random_floor(random);
    let m = orders::random_rack_count(random, floor.n);
    let steps = random_step_count(random);
    sound_on(random, floor, m, steps)
}

/// A sound timetable of so many steps.
pub fn sound_on(random: &mut Random, floor: Floor, m: usize, steps: usize) -> Sample {
    let mut order = orders::order_on(random, &floor, m);
    let mut racks = Racks::new(&floor, &order.starts);
    let mut timetable = Timetable::default();
    for _ in 0..steps {
        let moves = racks.random_step(random, 0);
        racks.make(&moves);
        timetable.steps.push(Step { moves, pad: 0 });
    }
    order.goals = racks.places();
    Sample { floor, order, timetable }
}

/// Every choice, on every floor of so many positions and with every set of positions occupied, of a
/// neighbour to enter or none for each rack: as an order in which each rack's goal is where it would
/// then stand (where it starts, if two would stand at one place), and one step.
pub fn every_step(n: usize, mut each: impl FnMut(&Sample)) {
    for floor in floors::every_floor(n) {
        for occupied in 0..1u64 << n {
            let starts: Vec<u8> = (0..n as u8).filter(|&position| occupied & only(position) != 0).collect();
            every_choice(&floor, &starts, &mut Vec::new(), &mut each);
        }
    }
}

/// The choices of the racks from the next one on.
fn every_choice(floor: &Floor, starts: &[u8], places: &mut Vec<u8>, each: &mut impl FnMut(&Sample)) {
    let Some(&at) = starts.get(places.len()) else {
        let moves =
            starts.iter().copied().zip(places.iter().copied()).filter(|(left, entered)| left != entered);
        let timetable = Timetable { steps: vec![Step { moves: moves.collect(), pad: 0 }], spare: 0 };
        let distinct =
            places.iter().fold(0, |set, &place| set | only(place)).count_ones() as usize == places.len();
        let goals = if distinct { places.clone() } else { starts.to_vec() };
        let Floor { n, edges } = floor.clone();
        let order = Order { n, edges, starts: starts.to_vec(), goals, spare: 0, pad: 0 };
        return each(&Sample { floor: floor.clone(), order, timetable });
    };
    for entered in 0..floor.n as u8 {
        if entered == at || floor.neighbours()[usize::from(at)] & only(entered) != 0 {
            places.push(entered);
            every_choice(floor, starts, places, each);
            places.pop();
        }
    }
}

/// Steps of any moves, well packed: for the step reader, which judges no move.
pub fn random_packed(random: &mut Random) -> Timetable {
    let mut timetable = Timetable::default();
    for _ in 0..random_step_count(random) {
        let c = match random.below(6) {
            0 => 0,
            1 => 255,
            2 => random.between(1, 255),
            _ => random.between(1, 6),
        };
        let moves = (0..c).map(|_| (random.below(64) as u8, random.below(64) as u8)).collect();
        timetable.steps.push(Step { moves, pad: 0 });
    }
    timetable
}

kinds! {
    pub enum Damage in DAMAGES {
        None,
        Order,
        Cut,
        Extended,
        StepCountChanged,
        CountByteChanged,
        SpareSet,
        PadSet,
        BitFlipped,
        Noise,
        Unsorted,
        MoveRepeated,
        FromVacant,
        NotJoined,
        OutOfRange,
        IntoStanding,
        EnteredTwice,
        RingTurns,
        Exchange,
        TrainOfNine,
        TrainOfMore,
        TooMany,
        PadSetAfterFault,
        StepLeftOut,
        GoalsExchanged,
        GoalElsewhere,
    }
}

/// A case with a random damage.
pub fn random_case(random: &mut Random) -> (Damage, Case) {
    cases::random_case(random, &DAMAGES, random_sound, damaged)
}

/// The timetable with the damage, if it has what is to be damaged.
pub fn damaged(random: &mut Random, sound: &Sample, damage: Damage) -> Option<Case> {
    let mut order = sound.order.clone();
    let mut timetable = sound.timetable.clone();
    let s = timetable.steps.len();
    let answer = match damage {
        Damage::None => (s as u64) << 8 | (timetable.move_count() as u64) << 30,
        Damage::Order => return Some(cases::order_damaged(random, &order, timetable.record())),
        Damage::Cut
        | Damage::Extended
        | Damage::StepCountChanged
        | Damage::CountByteChanged
        | Damage::BitFlipped
        | Damage::Noise => {
            let (record, answer) = damage_bytes(random, &timetable, damage)?;
            return Some(Case { order: order.record(), record, answer });
        }
        Damage::SpareSet => {
            timetable.spare = random.between(1, 3) as u8;
            41
        }
        Damage::PadSet => {
            set_pad(random, &mut timetable)?;
            41
        }
        Damage::PadSetAfterFault => {
            set_pad(random, &mut timetable)?;
            let moves = illegal_step(random, &sound.before(0), Damage::OutOfRange)?;
            timetable.steps.insert(0, Step { moves, pad: 0 });
            41
        }
        Damage::StepLeftOut => {
            let moved = timetable.steps.pop()?.moves;
            let racks = sound.before(s - 1);
            let lowest = moved.iter().map(|&(left, _)| racks.rack_at[usize::from(left)]).min()?;
            refused(43, u32::from(lowest))
        }
        Damage::GoalsExchanged | Damage::GoalElsewhere => {
            refused(43, damage_goals(random, &mut order, damage == Damage::GoalsExchanged)?)
        }
        fault => {
            let index = random.between(0, s);
            let moves = illegal_step(random, &sound.before(index), fault)?;
            let step = Step { moves, pad: 0 };
            match index < s && random.one_in(2) {
                true => timetable.steps[index] = step,
                false => timetable.steps.insert(index, step),
            }
            refused(42, index as u32 + 1)
        }
    };
    Some(Case { order: order.record(), record: timetable.record(), answer: Some(answer) })
}

/// Damage to the record's bytes, and the number it then meets, where that is certain.
pub fn damage_bytes(
    random: &mut Random,
    timetable: &Timetable,
    damage: Damage,
) -> Option<(Vec<u8>, Option<u64>)> {
    let mut bytes = timetable.record();
    let answer = match damage {
        Damage::Cut => {
            bytes.truncate(random.below(bytes.len()));
            Some(40)
        }
        Damage::Extended => {
            let length = random.between(1, 5);
            let more = if random.one_in(2) { vec![0; length] } else { random.bytes(length) };
            bytes.extend(more);
            Some(40)
        }
        Damage::StepCountChanged => {
            change_count(random, &mut bytes, timetable.steps.len());
            Some(40)
        }
        Damage::CountByteChanged => {
            let before = random.below(timetable.steps.len().max(1));
            let lengths = timetable.steps.iter().map(|step| 1 + (3 * step.moves.len()).div_ceil(2));
            let at = 3 + lengths.take(before).sum::<usize>();
            *bytes.get_mut(at)? = random.below(256) as u8;
            None
        }
        Damage::BitFlipped => {
            orders::flip(random, &mut bytes);
            None
        }
        _ => {
            let length = random.below(40);
            bytes = random.bytes(length);
            if random.one_in(2) && length > 3 {
                bytes[..2].fill(0); // few steps
            }
            None
        }
    };
    Some((bytes, answer))
}

/// Sets pad bits of one step that has a pad.
pub fn set_pad(random: &mut Random, timetable: &mut Timetable) -> Option<()> {
    let mut odd: Vec<&mut Step> =
        timetable.steps.iter_mut().filter(|step| step.moves.len() % 2 == 1).collect();
    nonempty(odd.len() as u64)?;
    let chosen = random.below(odd.len());
    odd[chosen].pad = random.between(1, 15) as u8;
    Some(())
}

/// The moves in the order of a step.
fn sorted(mut moves: Vec<Move>) -> Vec<Move> {
    moves.sort_unstable();
    moves
}

/// A step that is illegal on the arrangement, for this reason.
fn illegal_step(random: &mut Random, racks: &Racks, reason: Damage) -> Option<Vec<Move>> {
    match reason {
        Damage::Unsorted | Damage::MoveRepeated => spoilt_order(random, racks, reason),
        Damage::IntoStanding => into_standing(random, racks),
        Damage::EnteredTwice => entered_twice(random, racks),
        Damage::RingTurns | Damage::Exchange => no_leader(random, racks, reason),
        Damage::TrainOfNine => train_too_long(random, racks, LONGEST_TRAIN + 1),
        Damage::TrainOfMore => {
            let length = if random.one_in(2) { 64 } else { random.between(LONGEST_TRAIN + 2, 20) };
            train_too_long(random, racks, length)
        }
        Damage::TooMany => {
            let c = random.between(64, 255);
            let mut moves: Vec<Move> =
                (0..c).map(|_| (random.below(racks.n) as u8, random.below(racks.n) as u8)).collect();
            if random.one_in(2) {
                moves.sort_unstable();
            }
            Some(moves)
        }
        _ => with_bad_move(random, racks, reason),
    }
}

/// A legal step with two moves exchanged, or one move twice.
fn spoilt_order(random: &mut Random, racks: &Racks, reason: Damage) -> Option<Vec<Move>> {
    let mut moves = racks.random_step(random, 0);
    let c = moves.len();
    if reason == Damage::MoveRepeated {
        nonempty(c as u64)?;
        let index = random.below(c);
        moves.insert(index, moves[index]);
    } else {
        nonempty(c.saturating_sub(1) as u64)?;
        let two = random.distinct(2, c);
        moves.swap(usize::from(two[0]), usize::from(two[1]));
    }
    Some(moves)
}

/// A legal step with one move more, which is illegal by itself.
fn with_bad_move(random: &mut Random, racks: &Racks, reason: Damage) -> Option<Vec<Move>> {
    let bad = match reason {
        Damage::FromVacant => {
            let left = random.member(nonempty(racks.vacant())?);
            (left, random.member(nonempty(racks.joined(left))?))
        }
        Damage::NotJoined => racks.move_apart(random)?,
        _ => racks.move_outside(random)?,
    };
    let held = bounded(bad.0) | bounded(bad.1);
    let mut moves = racks.random_step(random, held);
    moves.push(bad);
    Some(sorted(moves))
}

/// The set of the position, which may be n or more.
fn bounded(position: u8) -> u64 {
    only(position.min(63))
}

/// A train whose leader enters a position that holds a rack which stays, and legal trains beside it.
fn into_standing(random: &mut Random, racks: &Racks) -> Option<Vec<Move>> {
    let stays = random.member(nonempty(racks.occupied)?);
    let mut train = Vec::new();
    let mut held = only(stays);
    let mut entered = stays;
    for _ in 0..random.between(1, 6) {
        let Some(movers) = nonempty(racks.joined(entered) & racks.occupied & !held) else { break };
        let left = random.member(movers);
        train.push((left, entered));
        held |= only(left);
        entered = left;
    }
    nonempty(train.len() as u64)?;
    train.extend(racks.random_step(random, held));
    Some(sorted(train))
}

/// Two racks that enter one vacant position, and legal trains beside them.
fn entered_twice(random: &mut Random, racks: &Racks) -> Option<Vec<Move>> {
    let entered = random.member(nonempty(racks.vacant())?);
    let movers = racks.joined(entered) & racks.occupied;
    let first = random.member(nonempty(movers)?);
    let second = random.member(nonempty(movers & !only(first))?);
    let held = only(entered) | only(first) | only(second);
    let mut moves = racks.random_step(random, held);
    moves.extend([(first, entered), (second, entered)]);
    Some(sorted(moves))
}

/// A full ring that turns, or two racks that change places, and legal trains beside them.
fn no_leader(random: &mut Random, racks: &Racks, reason: Damage) -> Option<Vec<Move>> {
    let ring = if reason == Damage::RingTurns {
        racks.random_ring(random)?
    } else {
        let first = random.member(nonempty(racks.occupied)?);
        vec![first, random.member(nonempty(racks.joined(first) & racks.occupied)?)]
    };
    let held = ring.iter().fold(0, |set, &position| set | only(position));
    let mut moves = racks.random_step(random, held);
    let next = ring.iter().cycle().skip(1);
    moves.extend(ring.iter().zip(next).map(|(&left, &entered)| (left, entered)));
    Some(sorted(moves))
}

/// A train of nine or more, of so many if there can be, and legal trains beside it: all that a legal step needs but
/// "no chain of more than eight moves from any mover to its leader".
fn train_too_long(random: &mut Random, racks: &Racks, length: usize) -> Option<Vec<Move>> {
    let entered = random.member(nonempty(racks.vacant())?);
    let mut moves = racks.random_train(random, entered, racks.occupied, length);
    nonempty(moves.len().saturating_sub(LONGEST_TRAIN) as u64)?;
    let held = moves.iter().fold(only(entered), |set, &(left, _)| set | only(left));
    moves.extend(racks.random_step(random, held));
    Some(sorted(moves))
}
