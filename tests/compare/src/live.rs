//! Pairs of an order and a timetable for one live floor: the one that it is opened with, and others that are lent
//! later.

use crate::floors::{self, Floor, Shape};
use crate::orders;
use crate::racks::Racks;
use crate::random::Random;
use crate::timetables::{self, Sample};
use crate::write::{Order, Step, Timetable};

/// Shapes on which racks can move.
const CONNECTED: [Shape; 6] =
    [Shape::Path, Shape::Ring, Shape::Grid, Shape::Complete, Shape::Sparse, Shape::BiConnected];

/// An order and a timetable as they are lent.
#[derive(Clone)]
pub struct Pair {
    pub order: Vec<u8>,
    pub timetable: Vec<u8>,
}

fn pair(order: &Order, timetable: &Timetable) -> Pair {
    Pair { order: order.record(), timetable: timetable.record() }
}

/// A sound timetable on the floor from these starts, its first steps given; the goals are where the racks then stand.
fn sound_from(random: &mut Random, floor: &Floor, starts: &[u8], first: &[Step], steps: usize) -> Sample {
    let mut racks = Racks::new(floor, starts);
    let mut timetable = Timetable { steps: first.to_vec(), spare: 0 };
    first.iter().for_each(|step| racks.make(&step.moves));
    while timetable.steps.len() < steps {
        let moves = racks.random_step(random, 0);
        racks.make(&moves);
        timetable.steps.push(Step { moves, pad: 0 });
    }
    let Floor { n, edges } = floor.clone();
    let order = Order { n, edges, starts: starts.to_vec(), goals: racks.places(), spare: 0, pad: 0 };
    Sample { floor: floor.clone(), order, timetable }
}

/// The floor with more positions, each joined to one or two others, and at times with an edge more between the old.
fn larger(random: &mut Random, floor: &Floor) -> Floor {
    let n = (floor.n + random.between(1, 3)).min(64);
    let mut edges: Vec<(usize, usize)> =
        floor.edges.iter().map(|&(a, b)| (usize::from(a), usize::from(b))).collect();
    for position in floor.n..n {
        for _ in 0..random.between(1, 2) {
            edges.push((random.below(position), position));
        }
    }
    if floor.n >= 2 && random.one_in(2) {
        let ends = random.distinct(2, floor.n);
        edges.push((usize::from(ends[0]), usize::from(ends[1])));
    }
    edges.truncate(floors::MOST_EDGES);
    Floor::new(n, edges)
}

/// The floor with an edge less, if it has one.
fn with_an_edge_less(random: &mut Random, floor: &Floor) -> Floor {
    let mut floor = floor.clone();
    if !floor.edges.is_empty() {
        let index = random.below(floor.edges.len());
        floor.edges.remove(index);
    }
    floor
}

/// Pairs for one floor, the opening one first: it again with fewer and with more steps and on a larger floor; other
/// steps from the same starts on the larger floor, on this one and with an edge less; other racks; the timetable of
/// another floor; and pairs that the checker refuses.
pub fn pairs(random: &mut Random) -> Vec<Pair> {
    let floor = match random.below(4) {
        0 => floors::random_floor(random),
        _ => {
            let shape = random.pick(&CONNECTED);
            floors::floor_of_shape(random, shape)
        }
    };
    let m = match random.below(3) {
        0 => orders::random_rack_count(random, floor.n),
        _ => random.between(floor.n / 3, floor.n.saturating_sub(1)),
    };
    let steps = random.between(0, 12);
    let starts = random.distinct(m, floor.n);
    let base = sound_from(random, &floor, &starts, &[], steps);
    let taken = random.between(0, steps);
    let first = &base.timetable.steps[..taken];
    let more = larger(random, &floor);
    let less = with_an_edge_less(random, &floor);
    let other_steps = random.between(0, 14);
    let others = random.distinct(m, floor.n);
    let samples = [
        base.clone(),
        sound_from(random, &floor, &starts, first, taken),
        sound_from(random, &floor, &starts, &base.timetable.steps, steps + 3),
        sound_from(random, &more, &starts, &base.timetable.steps, steps),
        sound_from(random, &more, &starts, first, steps + 1),
        sound_from(random, &floor, &starts, first, other_steps),
        sound_from(random, &less, &starts, &[], other_steps),
        sound_from(random, &floor, &others, &[], other_steps),
        timetables::random_sound(random),
    ];
    let mut pairs: Vec<Pair> = samples.iter().map(|sample| pair(&sample.order, &sample.timetable)).collect();
    for _ in 0..3 {
        let (_, case) = timetables::random_case(random);
        pairs.push(Pair { order: case.order, timetable: case.record });
    }
    let mut damaged = pairs[0].clone();
    match random.one_in(2) {
        true => damaged.order = orders::damaged_often(random, &base.order),
        false if damaged.timetable.len() > 3 => orders::flip(random, &mut damaged.timetable),
        false => damaged.timetable.push(0),
    }
    pairs.push(damaged);
    pairs
}
