//! Plans made to cancel, and plans made to hurt who looks for what cancels.

use crate::floors::{self, Floor};
use crate::orders;
use crate::plans::{self, Sample};
use crate::racks::{nonempty, only, Racks};
use crate::random::Random;
use crate::write::{Move, Order};

kinds! {
    pub enum Shape in SHAPES {
        Random,
        Nested,
        Interleaved,
        Visited,
        Freed,
        Neighbours,
        Nothing,
        Everything,
        NoneCancels,
    }
}

/// A plan that grows by legal moves.
struct Growing {
    racks: Racks,
    moves: Vec<Move>,
}

impl Growing {
    fn make(&mut self, one: Move) {
        self.racks.make(&[one]);
        self.moves.push(one);
    }

    /// A random move, if there is one: the move.
    fn random(&mut self, random: &mut Random) -> Option<Move> {
        let one = self.racks.random_move(random)?;
        self.make(one);
        Some(one)
    }

    /// Some random moves.
    fn some(&mut self, random: &mut Random, most: usize) {
        for _ in 0..random.below(most + 1) {
            self.random(random);
        }
    }

    /// Takes these moves back, the last first.
    fn back(&mut self, moves: &[Move]) {
        for &(left, entered) in moves.iter().rev() {
            self.make((entered, left));
        }
    }

    fn is_legal(&self, (left, entered): Move) -> bool {
        let joined = self.racks.joined(left) & only(entered) != 0;
        joined && self.racks.occupied & only(left) != 0 && self.racks.vacant() & only(entered) != 0
    }
}

/// A plan of this shape on a floor with room, and its order.
pub fn random_sample(random: &mut Random, shape: Shape) -> Sample {
    loop {
        let floor = floors::random_floor(random);
        let m = orders::random_rack_count(random, floor.n);
        let order = orders::order_on(random, &floor, m);
        let racks = Racks::new(&floor, &order.starts);
        let mut plan = Growing { racks, moves: Vec::new() };
        if grow(random, &mut plan, shape).is_some() {
            return sample(floor, order, plan);
        }
    }
}

fn sample(floor: Floor, mut order: Order, plan: Growing) -> Sample {
    order.goals = plan.racks.places();
    Sample { floor, order, moves: plan.moves }
}

fn grow(random: &mut Random, plan: &mut Growing, shape: Shape) -> Option<()> {
    match shape {
        Shape::Random => {
            plan.random(random)?;
            plan.some(random, 60);
        }
        // out and back again, inside one another
        Shape::Nested => {
            for _ in 0..random.between(1, 4) {
                plan.some(random, 3);
                let begin = plan.moves.len();
                plan.random(random)?;
                plan.some(random, 12);
                let out = plan.moves[begin..].to_vec();
                plan.back(&out);
            }
        }
        // racks go out one after another and come back in any order that is legal
        Shape::Interleaved => {
            let mut out = vec![plan.random(random)?];
            for _ in 0..random.between(1, 6) {
                out.push(plan.random(random)?);
            }
            random.shuffle(&mut out);
            for (left, entered) in out {
                if plan.is_legal((entered, left)) {
                    plan.make((entered, left));
                }
            }
            plan.some(random, 3);
        }
        // out; another visits the position left and goes again; back
        Shape::Visited => {
            let (left, entered) = plan.random(random)?;
            let visitors = plan.racks.joined(left) & plan.racks.occupied & !only(entered);
            let visitor = random.member(nonempty(visitors)?);
            plan.make((visitor, left));
            match random.one_in(2) {
                true => plan.make((left, visitor)),
                false => {
                    let away = plan.racks.joined(left) & plan.racks.vacant() & !only(visitor);
                    plan.make((left, random.member(nonempty(away)?)));
                }
            }
            plan.make((entered, left));
            plan.some(random, 4);
        }
        // out; another pair at the same positions; back: the outer pair is free when the inner is gone
        Shape::Freed => {
            let first = plan.random(random)?;
            let on = plan.racks.joined(first.1) & plan.racks.vacant() & !only(first.0);
            let next = (first.1, random.member(nonempty(on)?));
            for _ in 0..random.between(1, 5) {
                plan.make(next);
                plan.make((next.1, next.0));
            }
            plan.make((first.1, first.0));
            plan.some(random, 4);
        }
        Shape::Neighbours => {
            for _ in 0..random.between(1, 10) {
                let one = plan.random(random)?;
                plan.make((one.1, one.0));
            }
        }
        Shape::Nothing => {}
        Shape::Everything => {
            plan.random(random)?;
            plan.some(random, 30);
            let out = plan.moves.clone();
            plan.back(&out);
        }
        // no move back into the position that its rack came from
        Shape::NoneCancels => {
            let mut came_from = [64u8; 64];
            for _ in 0..random.between(1, 40) {
                let Some((left, entered)) = plan.racks.random_move(random) else { break };
                if came_from[usize::from(left)] != entered {
                    plan.make((left, entered));
                    came_from[usize::from(entered)] = left;
                }
            }
        }
    }
    Some(())
}

/// The 8 by 8 grid with racks at 0, 54 and 63, and these moves.
fn on_the_grid(moves: Vec<Move>) -> Sample {
    let floor = floors::grid(8, 8);
    let starts = vec![0, 54, 63];
    let mut racks = Racks::new(&floor, &starts);
    moves.iter().for_each(|&one| racks.make(&[one]));
    let order = Order { n: 64, edges: floor.edges.clone(), starts, goals: racks.places(), spare: 0, pad: 0 };
    Sample { floor, order, moves }
}

/// So many moves, these in turn.
fn in_turn(moves: &'static [Move], count: usize) -> impl Iterator<Item = Move> {
    moves.iter().copied().cycle().take(count)
}

/// These moves, and all of them taken back.
fn and_back(mut moves: Vec<Move>) -> Vec<Move> {
    let back: Vec<Move> = moves.iter().rev().map(|&(left, entered)| (entered, left)).collect();
    moves.extend(back);
    moves
}

/// Racks on the grid go out at random, so many moves, and then all of them go back.
fn out_and_back(m: usize, count: usize) -> Sample {
    let sample = plans::sound_on(&mut Random::new(0x5EED_E006), floors::grid(8, 8), m, count);
    let order = Order { goals: sample.order.starts.clone(), ..sample.order };
    Sample { order, moves: and_back(sample.moves), ..sample }
}

/// Rack 1 goes round four positions.
const ROUND: [Move; 4] = [(0, 1), (1, 9), (9, 8), (8, 0)];

/// Rack 2 steps out and in again, and does so by two ways in turn.
const OUT_AND_IN: [Move; 2] = [(54, 62), (62, 54)];
const TWO_WAYS: [Move; 4] = [(54, 62), (62, 54), (54, 46), (46, 54)];

/// Rack 3 passes through the position that rack 2 steps out to.
const VISIT: [Move; 2] = [(63, 62), (62, 61)];

/// Rack 3 visits, rack 2 steps out and in with so many moves of rack 1 between, and rack 3 takes its visit back: all
/// cancels but rack 1's moves.
pub fn apart_by(count: usize) -> Sample {
    let [out, back] = OUT_AND_IN;
    let visit_back = VISIT.into_iter().rev().map(|(left, entered)| (entered, left));
    let between = in_turn(&ROUND, count);
    on_the_grid(VISIT.into_iter().chain([out]).chain(between).chain([back]).chain(visit_back).collect())
}

/// Plans of about k moves that a search for what cancels has to be made for, each with its name.
pub fn hurting(k: usize) -> Vec<(&'static str, Sample)> {
    let round = |count| in_turn(&ROUND, count);
    let out_and_in = |count| in_turn(&OUT_AND_IN, count);
    let (half, quarter) = (k / 4 * 2, k / 8 * 2);
    let gap_gone = and_back(round(quarter).collect());
    let between = round(k / 3).flat_map(|one| [one, OUT_AND_IN[0], OUT_AND_IN[1]]);
    vec![
        ("nothing cancels", on_the_grid(round(k).collect())),
        ("out and in", on_the_grid(out_and_in(k).collect())),
        ("all out, all back", on_the_grid(and_back(round(half).collect()))),
        ("all out, all back, 32 racks", out_and_back(32, half)),
        ("all out, all back, 62 racks", out_and_back(62, half)),
        ("out and in after a gap", on_the_grid(round(half).chain(out_and_in(half)).collect())),
        (
            "out and in, a visit before it",
            on_the_grid(VISIT.into_iter().chain(round(half)).chain(out_and_in(half)).collect()),
        ),
        (
            "out by two ways, a visit before it",
            on_the_grid(VISIT.into_iter().chain(round(half)).chain(in_turn(&TWO_WAYS, half)).collect()),
        ),
        (
            "out and in, the gap gone",
            on_the_grid(VISIT.into_iter().chain(gap_gone).chain(out_and_in(half)).collect()),
        ),
        ("out and in between", on_the_grid(between.collect())),
    ]
}
