//! Where each position of a floor is drawn, and how each edge runs.
//!
//! Grids, numbered row by row, are drawn as grids and rings as ovals. Any other floor is drawn on a lattice, its connected parts
//! one after another (`lattice`); an edge that would run over a position is bowed round it (`bows`). A layout is a
//! function of the floor alone. Its arithmetic is of whole numbers, and of floating point numbers by the four operations
//! and square roots, which are rounded in the same way on every machine.

mod bows;
mod lattice;
mod oval;
mod spread;
mod straight;

/// A place of the drawing, from its left upper corner.
pub type Point = (i32, i32);

/// No two positions are nearer than this, from middle to middle.
pub const SPACING: i32 = 100;

/// A position's tile lies inside a circle of this radius round its middle.
pub const RADIUS: i32 = 50;

/// From the border of the drawing to the middle of the nearest position.
const MARGIN: i32 = 56;

#[derive(Clone, Copy, Debug, PartialEq, Eq)]
pub enum Kind {
    Grid { rows: usize, columns: usize },
    Oval,
    Lattice,
}

#[derive(Clone, Debug, PartialEq, Eq)]
pub struct Layout {
    pub kind: Kind,
    pub places: Vec<Point>,
    /// For each edge the point that it is drawn towards, if it is not straight: the control point of a quadratic curve.
    pub bows: Vec<Option<Point>>,
    pub width: i32,
    pub height: i32,
}

/// The layout of a floor: so many positions, and edges between pairs of them.
pub fn layout(positions: usize, edges: &[(usize, usize)]) -> Layout {
    let floor = Floor::new(positions, edges);
    if let Some((rows, columns)) = as_grid(&floor) {
        let place = |at: usize| ((at % columns) as i32 * SPACING, (at / columns) as i32 * SPACING);
        return framed(Kind::Grid { rows, columns }, (0..positions).map(place).collect(), edges, false);
    }
    match as_ring(&floor) {
        Some(round) => framed(Kind::Oval, oval::places(&round), edges, false),
        None => framed(Kind::Lattice, lattice::places(&floor), edges, true),
    }
}

/// The places moved so that the drawing begins at (0, 0), with its margin, and the edges bowed where that is asked for.
fn framed(kind: Kind, places: Vec<Point>, edges: &[(usize, usize)], bowed: bool) -> Layout {
    let bows = if bowed { bows::bows(&places, edges) } else { vec![None; edges.len()] };
    let on_curves = bows.iter().zip(edges).filter_map(|(bow, &(a, b))| {
        let middle = |from: i32, to: i32, towards: i32| (from + 2 * towards + to) / 4;
        bow.map(|(x, y)| (middle(places[a].0, places[b].0, x), middle(places[a].1, places[b].1, y)))
    });
    let drawn: Vec<Point> = places.iter().copied().chain(on_curves).collect();
    let left = drawn.iter().map(|place| place.0).min().unwrap_or(0);
    let top = drawn.iter().map(|place| place.1).min().unwrap_or(0);
    let right = drawn.iter().map(|place| place.0).max().unwrap_or(0);
    let bottom = drawn.iter().map(|place| place.1).max().unwrap_or(0);
    let moved = |(x, y): Point| (x - left + MARGIN, y - top + MARGIN);
    Layout {
        kind,
        places: places.into_iter().map(moved).collect(),
        bows: bows.into_iter().map(|bow| bow.map(moved)).collect(),
        width: right - left + 2 * MARGIN,
        height: bottom - top + 2 * MARGIN,
    }
}

/// A floor, with each position's neighbours ascending.
struct Floor {
    positions: usize,
    edges: Vec<(usize, usize)>,
    neighbours: Vec<Vec<usize>>,
}

impl Floor {
    /// In whatever order and direction the edges are listed.
    fn new(positions: usize, edges: &[(usize, usize)]) -> Floor {
        let mut edges: Vec<_> = edges.iter().map(|&(a, b)| (a.min(b), a.max(b))).collect();
        edges.sort_unstable();
        edges.dedup();
        let mut neighbours = vec![Vec::new(); positions];
        for &(a, b) in &edges {
            neighbours[a].push(b);
            neighbours[b].push(a);
        }
        neighbours.iter_mut().for_each(|list| list.sort_unstable());
        Floor { positions, edges, neighbours }
    }

    /// For each position the number of edges on the shortest way to it, none where there is no way.
    fn distances(&self, from: usize) -> Vec<Option<usize>> {
        let mut distances = vec![None; self.positions];
        distances[from] = Some(0);
        let mut reached = vec![from];
        let mut next = 0;
        while let Some(&at) = reached.get(next) {
            next += 1;
            for &neighbour in &self.neighbours[at] {
                if distances[neighbour].is_none() {
                    distances[neighbour] = distances[at].map(|distance| distance + 1);
                    reached.push(neighbour);
                }
            }
        }
        distances
    }
}

/// Rows and columns, if the positions run row by row with edges between side neighbours. A single line is a row.
fn as_grid(floor: &Floor) -> Option<(usize, usize)> {
    let n = floor.positions;
    let columns = (1..=n).rev().find(|&columns| n % columns == 0 && floor.edges == grid_edges(n, columns))?;
    Some((n / columns, columns))
}

fn grid_edges(n: usize, columns: usize) -> Vec<(usize, usize)> {
    let beside = |at: usize| (at % columns + 1 < columns).then_some((at, at + 1));
    let below = |at: usize| (at + columns < n).then_some((at, at + columns));
    (0..n).flat_map(|at| [beside(at), below(at)]).flatten().collect()
}

/// The positions in the order of the ring, if the floor is one: from position 0 to its lower neighbour and on.
fn as_ring(floor: &Floor) -> Option<Vec<usize>> {
    if floor.positions < 3 || floor.neighbours.iter().any(|list| list.len() != 2) {
        return None;
    }
    let mut round = vec![0, floor.neighbours[0][0]];
    loop {
        let (before, at) = (round[round.len() - 2], round[round.len() - 1]);
        match floor.neighbours[at].iter().find(|&&next| next != before) {
            Some(&next) if next != 0 => round.push(next),
            _ => return (round.len() == floor.positions).then_some(round),
        }
    }
}
