//! Floors of every shape, with at most 255 edges.

use crate::random::Random;
use std::collections::BTreeSet;

/// The largest edge count.
pub const MOST_EDGES: usize = 255;

/// n positions, and edges with the lower position first, ascending.
#[derive(Clone, Debug)]
pub struct Floor {
    pub n: usize,
    pub edges: Vec<(u8, u8)>,
}

impl Floor {
    /// The floor with these edges, in whatever order and direction they are listed.
    pub fn new(n: usize, edges: impl IntoIterator<Item = (usize, usize)>) -> Floor {
        let lower_first = |(a, b): (usize, usize)| (a.min(b) as u8, a.max(b) as u8);
        let edges: BTreeSet<(u8, u8)> = edges.into_iter().map(lower_first).collect();
        Floor { n, edges: edges.into_iter().collect() }
    }

    /// For each position the set of those joined to it.
    pub fn neighbours(&self) -> [u64; 64] {
        let mut neighbours = [0; 64];
        for &(a, b) in &self.edges {
            neighbours[usize::from(a)] |= 1 << b;
            neighbours[usize::from(b)] |= 1 << a;
        }
        neighbours
    }
}

kinds! {
    pub enum Shape in SHAPES {
        NoEdges,
        Path,
        Ring,
        Star,
        Complete,
        Grid,
        Tree,
        TwoParts,
        Sparse,
        Dense,
        BiConnected,
        AlmostBiConnected,
        FourSided,
    }
}

/// A floor of a random shape and size, its positions numbered at random.
pub fn random_floor(random: &mut Random) -> Floor {
    let shape = random.pick(&SHAPES);
    floor_of_shape(random, shape)
}

/// A size from 1 to 64: a third of them small, some the largest.
pub fn random_size(random: &mut Random) -> usize {
    match random.below(12) {
        0..=3 => random.between(1, 7),
        4 => 64,
        _ => random.between(1, 64),
    }
}

pub fn floor_of_shape(random: &mut Random, shape: Shape) -> Floor {
    let n = random_size(random);
    match shape {
        Shape::NoEdges => Floor::new(n, []),
        Shape::Path => renumbered(random, n, path(0, n)),
        Shape::Ring => {
            let n = n.max(3);
            renumbered(random, n, ring(n))
        }
        Shape::Star => renumbered(random, n, (1..n).map(|leaf| (0, leaf)).collect()),
        Shape::Complete => {
            let n = n.min(23); // 253 edges
            renumbered(random, n, all_pairs(n))
        }
        Shape::Grid => {
            let rows = random.between(1, 8);
            let columns = random.between(1, 64 / rows);
            let numbered = grid(rows, columns);
            match random.one_in(2) {
                true => numbered,
                false => {
                    let edges =
                        numbered.edges.iter().map(|&(a, b)| (usize::from(a), usize::from(b))).collect();
                    renumbered(random, numbered.n, edges)
                }
            }
        }
        Shape::Tree => {
            let edges = (1..n).map(|at| (random.below(at), at)).collect();
            renumbered(random, n, edges)
        }
        Shape::TwoParts => {
            let cut = random.below(n);
            let edges = [path(0, cut), path(cut, n)].concat();
            renumbered(random, n, edges)
        }
        Shape::Sparse => {
            let most = 2 * n;
            random_edges(random, n, Vec::new(), most)
        }
        Shape::Dense => random_edges(random, n, Vec::new(), MOST_EDGES),
        Shape::BiConnected => bi_connected(random, n.max(3)),
        Shape::AlmostBiConnected => almost_bi_connected(random, n.max(4)),
        Shape::FourSided => four_sided(random, n.max(3)),
    }
}

fn path(from: usize, to: usize) -> Vec<(usize, usize)> {
    (from + 1..to).map(|at| (at - 1, at)).collect()
}

fn ring(n: usize) -> Vec<(usize, usize)> {
    (0..n).map(|at| (at, (at + 1) % n)).collect()
}

pub fn all_pairs(n: usize) -> Vec<(usize, usize)> {
    (0..n).flat_map(|a| (a + 1..n).map(move |b| (a, b))).collect()
}

/// The floors of n positions, one for each set of edges.
pub fn every_floor(n: usize) -> impl Iterator<Item = Floor> {
    let pairs = all_pairs(n);
    (0..1u32 << pairs.len()).map(move |chosen| {
        let edges = pairs.iter().enumerate().filter(|(bit, _)| chosen >> bit & 1 == 1);
        Floor::new(n, edges.map(|(_, &edge)| edge))
    })
}

/// Rows of positions numbered along each row.
pub fn grid(rows: usize, columns: usize) -> Floor {
    let at = |row, column| row * columns + column;
    let across = (0..rows).flat_map(|r| (1..columns).map(move |c| (at(r, c - 1), at(r, c))));
    let down = (1..rows).flat_map(|r| (0..columns).map(move |c| (at(r - 1, c), at(r, c))));
    Floor::new(rows * columns, across.chain(down))
}

/// The floor with its positions numbered anew at random.
fn renumbered(random: &mut Random, n: usize, edges: Vec<(usize, usize)>) -> Floor {
    let names = random.distinct(n, n);
    Floor::new(n, edges.into_iter().map(|(a, b)| (usize::from(names[a]), usize::from(names[b]))))
}

/// The edges given, and up to so many in all, chosen at random.
fn random_edges(random: &mut Random, n: usize, edges: Vec<(usize, usize)>, most: usize) -> Floor {
    let mut more = all_pairs(n);
    random.shuffle(&mut more);
    let most = random.between(edges.len(), most.min(MOST_EDGES).max(edges.len()));
    more.truncate(most - edges.len());
    renumbered(random, n, [edges, more].concat())
}

/// A ring and handles on it, then perhaps further edges. n is at least 3.
pub fn bi_connected(random: &mut Random, n: usize) -> Floor {
    let edges = ring_and_handles(random, 0, n, n);
    let most = edges.len() + random.below(n);
    random_edges(random, n, edges, most)
}

/// How many of the edges have this position at one of their ends.
fn edges_at(edges: &[(usize, usize)], position: usize) -> usize {
    edges.iter().filter(|&&(a, b)| a == position || b == position).count()
}

/// Edges more, up to so many, chosen at random among those whose ends both have fewer than `sides`.
fn more_edges(random: &mut Random, n: usize, edges: &mut Vec<(usize, usize)>, more: usize, sides: usize) {
    let most = edges.len() + more;
    let mut pairs = all_pairs(n);
    random.shuffle(&mut pairs);
    for (a, b) in pairs {
        let free = edges_at(edges, a) < sides && edges_at(edges, b) < sides;
        if edges.len() < most && free && !edges.contains(&(a, b)) && !edges.contains(&(b, a)) {
            edges.push((a, b));
        }
    }
}

/// A bi-connected floor of at most four neighbours to a position: such a ring with handles, then perhaps further edges,
/// up to as many as positions. n is at least 3.
pub fn four_sided(random: &mut Random, n: usize) -> Floor {
    let mut edges = ring_and_handles(random, 0, n, 4);
    let more = random.between(0, n);
    more_edges(random, n, &mut edges, more, 4);
    renumbered(random, n, edges)
}

/// A bi-connected floor on which one position has exactly so many neighbours, and the others have at most four, where
/// there are enough of those with fewer; n is above `sides`, and `sides` at least 4.
pub fn with_sides(random: &mut Random, n: usize, sides: usize) -> Floor {
    let mut edges = ring_and_handles(random, 0, n, 4);
    let more = random.between(0, n / 2);
    more_edges(random, n, &mut edges, more, 4);
    let middle = random.below(n);
    let mut others: Vec<usize> = (0..n).filter(|&other| other != middle).collect();
    random.shuffle(&mut others);
    others.sort_by_key(|&other| edges_at(&edges, other) >= 4);
    for other in others {
        let joined = edges.contains(&(middle, other)) || edges.contains(&(other, middle));
        if !joined && edges_at(&edges, middle) < sides {
            edges.push((middle, other));
        }
    }
    renumbered(random, n, edges)
}

/// A bi-connected floor of a small ring and handles of up to so many inner positions, at most four neighbours to a
/// position, without further edges. n is at least 7.
pub fn of_handles(random: &mut Random, n: usize, longest: usize) -> Floor {
    let settled = random.between(3, 6);
    let edges = handles_on_ring(random, 0, n, settled, longest, 4);
    renumbered(random, n, edges)
}

/// The edges of a bi-connected floor on the positions from `first` to below `end`, at least 3. No position has more
/// than `sides` of them, at least 3.
fn ring_and_handles(random: &mut Random, first: usize, end: usize, sides: usize) -> Vec<(usize, usize)> {
    let settled = random.between(3, end - first);
    handles_on_ring(random, first, end, settled, 4, sides)
}

/// The edges of a ring of so many positions and of handles on it, each of up to `longest` inner positions.
fn handles_on_ring(
    random: &mut Random,
    first: usize,
    end: usize,
    mut settled: usize,
    longest: usize,
    sides: usize,
) -> Vec<(usize, usize)> {
    let mut edges: Vec<_> = ring(settled).into_iter().map(|(a, b)| (first + a, first + b)).collect();
    while first + settled < end {
        let inner = random.between(1, usize::min(longest, end - first - settled));
        let mut ends: Vec<usize> =
            (first..first + settled).filter(|&at| edges_at(&edges, at) < sides).collect();
        random.shuffle(&mut ends);
        let mut walk = vec![ends[0]];
        walk.extend(first + settled..first + settled + inner);
        walk.push(ends[1]);
        edges.extend(walk.windows(2).map(|two| (two[0], two[1])));
        settled += inner;
    }
    edges
}

/// A bi-connected floor spoilt: two such parts that share one position, or an edge between them, or one
/// position hung on by a single edge. n is at least 4.
fn almost_bi_connected(random: &mut Random, n: usize) -> Floor {
    let mut edges = ring_and_handles(random, 0, n - 1, n);
    if n < 7 || random.one_in(3) {
        edges.push((random.below(n - 1), n - 1));
        return renumbered(random, n, edges);
    }
    let cut = random.between(3, n - 4);
    edges = ring_and_handles(random, 0, cut, n);
    match random.one_in(2) {
        true => edges.extend(ring_and_handles(random, cut - 1, n, n)),
        false => {
            edges.extend(ring_and_handles(random, cut, n, n));
            edges.push((random.below(cut), random.between(cut, n - 1)));
        }
    }
    renumbered(random, n, edges)
}

#[cfg(test)]
mod tests {
    use super::*;

    #[test]
    fn edges_are_few_enough_and_in_order() {
        let mut random = Random::new(1);
        for _ in 0..20_000 {
            let Floor { n, edges } = random_floor(&mut random);
            assert!((1..=64).contains(&n) && edges.len() <= MOST_EDGES);
            assert!(edges.iter().all(|&(a, b)| a < b && usize::from(b) < n));
            assert!(edges.windows(2).all(|two| two[0] < two[1]));
        }
    }

    fn most_sides(floor: &Floor) -> u32 {
        floor.neighbours().iter().map(|joined| joined.count_ones()).max().unwrap_or(0)
    }

    #[test]
    fn no_more_sides_than_asked_for() {
        let mut random = Random::new(2);
        for _ in 0..5_000 {
            let n = random.between(3, 64);
            assert!(most_sides(&four_sided(&mut random, n)) <= 4);
            let sides = random.between(4, 7);
            let n = random.between(sides + 1, 64);
            assert!(most_sides(&with_sides(&mut random, n, sides)) >= sides as u32);
        }
    }

    #[test]
    fn a_grid_has_its_edges() {
        let floor = grid(2, 3);
        assert_eq!(floor.edges, [(0, 1), (0, 3), (1, 2), (1, 4), (2, 5), (3, 4), (4, 5)]);
    }
}
