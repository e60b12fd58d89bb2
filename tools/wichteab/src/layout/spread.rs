//! A connected floor spread over the plane so that distances in the drawing follow distances on the floor: stress
//! majorization (Gansner, Koren and North 2004), from fixed beginnings. The result of least stress is taken.

use super::Floor;

pub type Spot = (f64, f64);

const ROUNDS: usize = 100;
const BEGINNINGS: u64 = 3;

/// The spot of each position, an edge being about 1 long.
pub fn spots(floor: &Floor) -> Vec<Spot> {
    let distances: Vec<Vec<f64>> = (0..floor.positions)
        .map(|from| floor.distances(from).into_iter().map(|way| way.unwrap_or(0) as f64).collect())
        .collect();
    let mut best: Option<(f64, Vec<Spot>)> = None;
    for number in 0..BEGINNINGS {
        let mut spots = beginning(&distances, number);
        for _ in 0..ROUNDS {
            relax(&distances, &mut spots);
        }
        let stress = stress(&distances, &spots);
        if best.as_ref().is_none_or(|(least, _)| stress < *least) {
            best = Some((stress, spots));
        }
    }
    best.map(|(_, spots)| spots).unwrap_or_default()
}

/// The first beginning measures each position from the ends of the floor; the others strew the positions.
fn beginning(distances: &[Vec<f64>], number: u64) -> Vec<Spot> {
    let n = distances.len();
    let strewn = |at: usize, salt: u64| scattered(number << 32 | (at as u64) << 1 | salt);
    if number > 0 {
        let wide = (n as f64).sqrt();
        return (0..n).map(|at| (strewn(at, 0) * wide, strewn(at, 1) * wide)).collect();
    }
    let farthest =
        |far: &dyn Fn(usize) -> f64| (0..n).fold(0, |best, at| if far(at) > far(best) { at } else { best });
    let west = farthest(&|at| distances[0][at]);
    let east = farthest(&|at| distances[west][at]);
    let off_both = |at: usize| distances[west][at].min(distances[east][at]);
    let north = farthest(&off_both);
    let south = farthest(&|at| distances[north][at] - (distances[west][at] - distances[east][at]).abs());
    // Two positions must not begin at one spot: nothing would part them.
    let across = |at: usize| distances[west][at] - distances[east][at] + strewn(at, 0) / 8.0;
    let down = |at: usize| distances[north][at] - distances[south][at] + strewn(at, 1) / 8.0;
    (0..n).map(|at| (across(at) / 2.0, down(at) / 2.0)).collect()
}

/// A number from -1 to 1 that looks random: the mixing of SplitMix64.
fn scattered(seed: u64) -> f64 {
    let mut z = seed.wrapping_add(1).wrapping_mul(0x9E37_79B9_7F4A_7C15);
    z = (z ^ z >> 30).wrapping_mul(0xBF58_476D_1CE4_E5B9);
    z = (z ^ z >> 27).wrapping_mul(0x94D0_49BB_1331_11EB);
    (z >> 40) as f64 / (1u64 << 23) as f64 - 1.0
}

/// One round: each position goes to the middle of where the others would have it, the near ones with more weight.
fn relax(distances: &[Vec<f64>], spots: &mut [Spot]) {
    for at in 0..spots.len() {
        let (mut x, mut y, mut weights) = (0.0, 0.0, 0.0);
        for other in (0..spots.len()).filter(|&other| other != at) {
            let wanted = distances[at][other];
            let weight = 1.0 / (wanted * wanted);
            let (dx, dy) = (spots[at].0 - spots[other].0, spots[at].1 - spots[other].1);
            let pull = wanted / (dx * dx + dy * dy).sqrt().max(1e-6);
            x += weight * (spots[other].0 + dx * pull);
            y += weight * (spots[other].1 + dy * pull);
            weights += weight;
        }
        if weights > 0.0 {
            spots[at] = (x / weights, y / weights);
        }
    }
}

fn stress(distances: &[Vec<f64>], spots: &[Spot]) -> f64 {
    let mut stress = 0.0;
    for at in 0..spots.len() {
        for other in 0..at {
            let wanted = distances[at][other];
            let (dx, dy) = (spots[at].0 - spots[other].0, spots[at].1 - spots[other].1);
            let off = (dx * dx + dy * dy).sqrt() / wanted - 1.0;
            stress += off * off;
        }
    }
    stress
}
