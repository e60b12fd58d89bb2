//! Connected floors whose edges can all join side neighbours of the lattice: grids with gaps, or numbered in another way.
//! A bounded search; where it finds nothing in time, the floor is drawn in the other way.

use super::lattice::{Cell, COLUMNS, ROWS};
use super::Floor;

/// How many cells are tried at most.
const TRIES: usize = 6000;

/// The cell of each position, if such a drawing was found. Trees have too many, none of which stands out.
pub fn cells(floor: &Floor) -> Option<Vec<Cell>> {
    let sides = floor.neighbours.iter().map(Vec::len).max().unwrap_or(0);
    if floor.edges.len() < floor.positions || sides > 4 {
        return None;
    }
    let mut search = Search { floor, cells: vec![None; floor.positions], tries: TRIES };
    search.put(0, (0, 0));
    let found = search.place_others();
    found.then(|| upright(search.cells.into_iter().flatten().collect()))
}

/// From column 0 and row 0, and turned over if it has too many columns.
fn upright(cells: Vec<Cell>) -> Vec<Cell> {
    let left = cells.iter().map(|cell| cell.0).min().unwrap_or(0);
    let top = cells.iter().map(|cell| cell.1).min().unwrap_or(0);
    let moved: Vec<Cell> = cells.into_iter().map(|(x, y)| (x - left, y - top)).collect();
    if moved.iter().all(|cell| cell.0 < COLUMNS) {
        moved
    } else {
        moved.into_iter().map(|(x, y)| (y, x)).collect()
    }
}

struct Search<'a> {
    floor: &'a Floor,
    cells: Vec<Option<Cell>>,
    tries: usize,
}

impl Search<'_> {
    fn put(&mut self, position: usize, cell: Cell) {
        self.cells[position] = Some(cell);
    }

    /// Places the position that has most placed neighbours, then the others, going back where one has no cell.
    fn place_others(&mut self) -> bool {
        let placed = |at: usize| {
            self.floor.neighbours[at].iter().filter(|&&other| self.cells[other].is_some()).count()
        };
        let open = (0..self.cells.len()).filter(|&at| self.cells[at].is_none());
        let Some(next) = open.max_by_key(|&at| (placed(at), std::cmp::Reverse(at))) else { return true };
        for cell in self.choices(next) {
            if self.tries == 0 {
                return false;
            }
            self.tries -= 1;
            self.put(next, cell);
            if self.place_others() {
                return true;
            }
            self.cells[next] = None;
        }
        false
    }

    /// The free cells beside every placed neighbour, those first that are beside the fewest other positions.
    fn choices(&self, position: usize) -> Vec<Cell> {
        let neighbours = &self.floor.neighbours[position];
        let mut placed = neighbours.iter().filter_map(|&other| self.cells[other]);
        let Some((x, y)) = placed.next() else { return Vec::new() };
        let others: Vec<Cell> = placed.collect();
        let beside = |a: Cell, b: Cell| (a.0 - b.0).abs() + (a.1 - b.1).abs() == 1;
        let fits = |cell: &Cell| {
            !self.cells.contains(&Some(*cell))
                && others.iter().all(|&other| beside(*cell, other))
                && self.inside(*cell)
        };
        let strangers =
            |cell: &Cell| self.cells.iter().flatten().filter(|&&other| beside(*cell, other)).count();
        let mut cells: Vec<Cell> =
            [(x + 1, y), (x, y + 1), (x - 1, y), (x, y - 1)].into_iter().filter(fits).collect();
        cells.sort_by_key(strangers);
        cells
    }

    /// Whether the drawing stays within columns and rows, upright or lying, with this cell.
    fn inside(&self, (x, y): Cell) -> bool {
        let reach = |of: fn(Cell) -> i32, at: i32| {
            let all = self.cells.iter().flatten().map(|&cell| of(cell)).chain([at]);
            all.clone().max().unwrap_or(0) - all.min().unwrap_or(0)
        };
        let (wide, high) = (reach(|cell| cell.0, x), reach(|cell| cell.1, y));
        wide.min(high) < COLUMNS && wide.max(high) < ROWS
    }
}
