//! Floors that are neither grids nor rings: each position on a crossing of a square lattice, so that no two are too near.
//! A connected part whose edges can all join side neighbours is drawn so (`straight`). Any other is first spread over
//! the plane, then set on the lattice, turned and stretched in the best of several ways, and then improved position by
//! position. Parts stand side by side in shelves; positions without edges come last, in rows.

use super::spread::{self, Spot};
use super::{straight, Floor, Point, SPACING};

/// From one lattice line to the next: wider than the spacing, so that edges may pass between two positions.
const PITCH: i32 = SPACING * 5 / 4;
/// A drawing has no more columns, so that a narrow screen shows it, and enough rows for every floor.
pub const COLUMNS: i32 = 8;
pub const ROWS: i32 = 24;
/// How often every position is tried elsewhere; on floors with many edges, where little can be gained, less often.
const PASSES: usize = 8;
const PASSES_OF_DENSE_FLOORS: usize = 2;
/// What an edge costs that runs over a position, and two edges that cross; an edge costs the square of its length.
const RUN_OVER: i64 = 8;
const CROSSING: i64 = 5;

pub type Cell = (i32, i32);

/// The place of each position.
pub fn places(floor: &Floor) -> Vec<Point> {
    let (alone, parts): (Vec<_>, Vec<_>) = parts(floor).into_iter().partition(|part| part.len() == 1);
    let mut boxes: Vec<(Vec<usize>, Vec<Cell>)> =
        parts.into_iter().map(|part| drawn_part(floor, part)).collect();
    if !alone.is_empty() {
        let columns = COLUMNS.min(alone.len() as i32);
        let cells = (0..alone.len() as i32).map(|index| (index % columns, index / columns)).collect();
        boxes.push((alone.concat(), cells));
    }
    let mut places = vec![(0, 0); floor.positions];
    let (mut left, mut top, mut below) = (0, 0, 0);
    for (part, cells) in boxes {
        let width = 1 + cells.iter().map(|cell| cell.0).max().unwrap_or(0);
        let height = 1 + cells.iter().map(|cell| cell.1).max().unwrap_or(0);
        if left + width > COLUMNS {
            (left, top) = (0, below);
        }
        for (&position, cell) in part.iter().zip(&cells) {
            places[position] = ((left + cell.0) * PITCH, (top + cell.1) * PITCH);
        }
        left += width;
        below = below.max(top + height);
    }
    places
}

/// The connected parts, those with more positions first.
fn parts(floor: &Floor) -> Vec<Vec<usize>> {
    let mut seen = vec![false; floor.positions];
    let mut parts: Vec<Vec<usize>> = Vec::new();
    for from in 0..floor.positions {
        if !seen[from] {
            let distances = floor.distances(from);
            let part: Vec<usize> = (0..floor.positions).filter(|&at| distances[at].is_some()).collect();
            part.iter().for_each(|&at| seen[at] = true);
            parts.push(part);
        }
    }
    parts.sort_by_key(|part| std::cmp::Reverse(part.len()));
    parts
}

/// The cells of a part's positions, from column 0 and row 0.
fn drawn_part(floor: &Floor, part: Vec<usize>) -> (Vec<usize>, Vec<Cell>) {
    let index = |position: usize| part.iter().position(|&at| at == position);
    let edges: Vec<(usize, usize)> =
        floor.edges.iter().filter_map(|&(a, b)| Some((index(a)?, index(b)?))).collect();
    let own = Floor::new(part.len(), &edges);
    let cells = straight::cells(&own).unwrap_or_else(|| spread_on_lattice(&own));
    (part, cells)
}

/// The cells of a connected floor's positions in the best of several ways, improved.
fn spread_on_lattice(floor: &Floor) -> Vec<Cell> {
    let spots = spread::spots(floor);
    let mut best: Option<(i64, Vec<Cell>)> = None;
    for turn in 0..12 {
        for stretch in [1.0, 1.2, 1.45] {
            let cells = set_down(&turned(&spots, turn, stretch));
            let cost = Sketch { floor, cells: cells.clone() }.cost();
            if best.as_ref().is_none_or(|(least, _)| cost < *least) {
                best = Some((cost, cells));
            }
        }
    }
    let mut sketch = Sketch { floor, cells: best.map(|(_, cells)| cells).unwrap_or_default() };
    sketch.improve();
    let left = sketch.cells.iter().map(|cell| cell.0).min().unwrap_or(0);
    let top = sketch.cells.iter().map(|cell| cell.1).min().unwrap_or(0);
    sketch.cells.iter().map(|cell| (cell.0 - left, cell.1 - top)).collect()
}

/// The spots turned by a part of the right angle and stretched, in lattice units, squeezed into the columns and rows.
fn turned(spots: &[Spot], turn: usize, stretch: f64) -> Vec<Spot> {
    // Turns without angles: the half angle's tangent, up to that of a right angle.
    let t = turn as f64 / 12.0;
    let (cosine, sine) = ((1.0 - t * t) / (1.0 + t * t), 2.0 * t / (1.0 + t * t));
    let spun =
        spots.iter().map(|&(x, y)| ((x * cosine - y * sine) * stretch, (x * sine + y * cosine) * stretch));
    let mut spun: Vec<Spot> = spun.collect();
    for (axis, most) in [(0, COLUMNS - 1), (1, ROWS - 1)] {
        let of = |spot: &Spot| if axis == 0 { spot.0 } else { spot.1 };
        let low = spun.iter().map(of).fold(f64::INFINITY, f64::min);
        let high = spun.iter().map(of).fold(f64::NEG_INFINITY, f64::max);
        let squeeze = (f64::from(most) / (high - low).max(1e-6)).min(1.0);
        for spot in &mut spun {
            let at = if axis == 0 { &mut spot.0 } else { &mut spot.1 };
            *at = (*at - low) * squeeze;
        }
    }
    spun
}

/// Each spot on the nearest free cell, those in the middle first: they have the least room to give way.
fn set_down(spots: &[Spot]) -> Vec<Cell> {
    let count = spots.len().max(1) as f64;
    let middle = spots.iter().fold((0.0, 0.0), |sum, spot| (sum.0 + spot.0 / count, sum.1 + spot.1 / count));
    let far = |spot: Spot, from: Spot| {
        let (x, y) = (spot.0 - from.0, spot.1 - from.1);
        x * x + y * y
    };
    let mut order: Vec<usize> = (0..spots.len()).collect();
    order.sort_by(|&a, &b| far(spots[a], middle).total_cmp(&far(spots[b], middle)));
    let mut free: Vec<Cell> = (0..ROWS).flat_map(|y| (0..COLUMNS).map(move |x| (x, y))).collect();
    let mut cells = vec![(0, 0); spots.len()];
    for index in order {
        let distance = |cell: &Cell| far(spots[index], (f64::from(cell.0), f64::from(cell.1)));
        let nearest = (0..free.len()).min_by(|&a, &b| distance(&free[a]).total_cmp(&distance(&free[b])));
        cells[index] = free.swap_remove(nearest.expect("there are more cells than positions"));
    }
    cells
}

/// A connected floor on the lattice.
struct Sketch<'a> {
    floor: &'a Floor,
    cells: Vec<Cell>,
}

impl Sketch<'_> {
    /// What the whole drawing costs, each crossing counted twice.
    fn cost(&self) -> i64 {
        self.floor.edges.iter().map(|&edge| self.edge_cost(edge)).sum()
    }

    /// Its length, the positions that it runs over, and the edges that it crosses.
    fn edge_cost(&self, (a, b): (usize, usize)) -> i64 {
        let (from, to) = (self.cells[a], self.cells[b]);
        let (x, y) = (i64::from(from.0 - to.0), i64::from(from.1 - to.1));
        if x * x + y * y == 1 {
            return 1; // between lattice neighbours there is nothing to meet
        }
        let over =
            (0..self.cells.len()).filter(|&at| at != a && at != b && runs_over(from, to, self.cells[at]));
        let others = self.floor.edges.iter().filter(|&&(c, d)| c != a && c != b && d != a && d != b);
        let crossed = others.filter(|&&(c, d)| cross(from, to, self.cells[c], self.cells[d]));
        x * x + y * y + RUN_OVER * over.count() as i64 + CROSSING * crossed.count() as i64
    }

    /// What a position costs where it is: its edges, and the others that run over it.
    fn position_cost(&self, at: usize) -> i64 {
        let own: i64 = self.floor.neighbours[at].iter().map(|&other| self.edge_cost((at, other))).sum();
        let others = self.floor.edges.iter().filter(|&&(a, b)| a != at && b != at);
        let over = others.filter(|&&(a, b)| runs_over(self.cells[a], self.cells[b], self.cells[at]));
        own + RUN_OVER * over.count() as i64
    }

    /// Moves each position, or changes it with another, where that costs less, until nothing does.
    fn improve(&mut self) {
        let dense = self.floor.edges.len() > 3 * self.cells.len();
        for _ in 0..if dense { PASSES_OF_DENSE_FLOORS } else { PASSES } {
            let better = (0..self.cells.len()).filter(|&at| self.improve_one(at)).count();
            if better == 0 {
                return;
            }
        }
    }

    /// Whether the position found a better cell, among those near it and those near the middle of its neighbours.
    fn improve_one(&mut self, at: usize) -> bool {
        let mut found = false;
        let mut own_cost = self.position_cost(at);
        for cell in self.candidates(at) {
            let here = self.cells[at];
            let other = self.cells.iter().position(|&taken| taken == cell);
            let before = own_cost + other.map_or(0, |other| self.position_cost(other));
            self.swap(at, other, cell, here);
            let moved_cost = self.position_cost(at);
            if moved_cost < before && moved_cost + other.map_or(0, |other| self.position_cost(other)) < before
            {
                own_cost = moved_cost;
                found = true;
            } else {
                self.swap(at, other, here, cell);
            }
        }
        found
    }

    fn swap(&mut self, at: usize, other: Option<usize>, cell: Cell, others_cell: Cell) {
        self.cells[at] = cell;
        if let Some(other) = other {
            self.cells[other] = others_cell;
        }
    }

    fn candidates(&self, at: usize) -> Vec<Cell> {
        let here = self.cells[at];
        let neighbours = &self.floor.neighbours[at];
        let count = neighbours.len().max(1) as i32;
        let sum = neighbours
            .iter()
            .fold((0, 0), |sum, &other| (sum.0 + self.cells[other].0, sum.1 + self.cells[other].1));
        let middle = (sum.0 / count, sum.1 / count);
        let near = |to: Cell, reach: i32| {
            (-reach..=reach).flat_map(move |y| (-reach..=reach).map(move |x| (to.0 + x, to.1 + y)))
        };
        let inside = |cell: &Cell| (0..COLUMNS).contains(&cell.0) && (0..ROWS).contains(&cell.1);
        let mut cells: Vec<Cell> = near(here, 1).chain(near(middle, 2)).filter(inside).collect();
        cells.sort_unstable();
        cells.dedup();
        cells.retain(|&cell| cell != here);
        cells
    }
}

fn turn(a: Cell, b: Cell, c: Cell) -> i64 {
    i64::from(b.0 - a.0) * i64::from(c.1 - a.1) - i64::from(b.1 - a.1) * i64::from(c.0 - a.0)
}

/// Whether the straight edge comes nearer to the cell than 0.4 lattice units.
fn runs_over(from: Cell, to: Cell, cell: Cell) -> bool {
    let (x, y) = (i64::from(to.0 - from.0), i64::from(to.1 - from.1));
    let along = x * i64::from(cell.0 - from.0) + y * i64::from(cell.1 - from.1);
    let length = x * x + y * y;
    let off = turn(from, to, cell);
    along > 0 && along < length && 25 * off * off < 4 * length
}

/// Whether two edges without a common end cross.
fn cross(a: Cell, b: Cell, c: Cell, d: Cell) -> bool {
    let sides = |x: i64, y: i64| x.signum() * y.signum() < 0;
    sides(turn(a, b, c), turn(a, b, d)) && sides(turn(c, d, a), turn(c, d, b))
}
