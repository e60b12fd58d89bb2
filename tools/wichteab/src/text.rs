//! The text form of orders, which docs/TEXT.md describes: read with the line and column of what is wrong, and
//! written in one canonical way.
//!
//! Only what a record cannot hold is turned away here. Whether an order is well formed the library says.

use crate::records::{
    Order, ShortOrder, HIGHEST_MODEL, HIGHEST_POSITION, MOST_EDGES, MOST_POSITIONS, MOST_RACKS,
};
use crate::tokens::{found, Line, Place};
use std::collections::BTreeMap;

/// What is wrong with a text, and where. Lines and columns count from 1, columns in characters.
#[derive(Clone, PartialEq, Eq, Debug)]
pub struct TextError {
    pub line: usize,
    pub column: usize,
    pub expected: String,
}

impl TextError {
    pub fn at(place: Place, expected: impl Into<String>) -> TextError {
        TextError { line: place.line, column: place.column, expected: expected.into() }
    }
}

/// An order as it is written: with its own floor, or on a model's.
#[derive(Clone, PartialEq, Eq, Debug)]
pub enum Written {
    Full(Order),
    Short(ShortOrder),
}

/// The lines on which edges and racks are given, for refusals that speak of them.
#[derive(Clone, PartialEq, Eq, Debug, Default)]
pub struct Lines {
    /// For each edge, in the record's order.
    pub edges: Vec<usize>,
    /// For each rack, rack 1 first.
    pub racks: Vec<usize>,
}

/// The order that a text writes. A byte order mark before it, as some editors write, is passed over.
pub fn read(text: &str) -> Result<(Written, Lines), TextError> {
    let mut draft = Draft::default();
    let mut end = Place { line: 1, column: 1 };
    for (index, characters) in text.strip_prefix('\u{FEFF}').unwrap_or(text).split('\n').enumerate() {
        end = Place { line: index + 1, column: 1 };
        draft.line(&mut Line::new(characters, index + 1))?;
    }
    draft.finish(end)
}

/// The floor as far as it was read.
enum Floor {
    Grid { rows: usize, columns: usize },
    Model(usize),
    Positions(usize),
}

/// A text as far as it was read.
#[derive(Default)]
struct Draft {
    floor: Option<Floor>,
    edges: Vec<((usize, usize), usize)>,
    racks: BTreeMap<usize, Rack>,
}

struct Rack {
    start: usize,
    goal: usize,
    place: Place,
}

const FIRST: &str = "`floor`, `model` or `positions`";

impl Draft {
    fn line(&mut self, line: &mut Line) -> Result<(), TextError> {
        let Some(first) = line.token() else { return Ok(()) };
        match (first.characters, &self.floor) {
            ("floor", None) => self.floor = Some(grid(line)?),
            ("model", None) => {
                let what = "a model's number, from 1 to 5";
                self.floor = Some(Floor::Model(line.number_up_to(HIGHEST_MODEL, what)?.0));
            }
            ("positions", None) => {
                let what = "how many positions the floor has, from 1 to 64";
                self.floor = Some(Floor::Positions(line.number_up_to(MOST_POSITIONS, what)?.0));
            }
            (_, None) => return Err(found(first, FIRST)),
            ("edges", Some(Floor::Positions(_))) => self.edges(line)?,
            ("rack", Some(_)) => self.rack(line)?,
            (_, Some(Floor::Positions(_))) => return Err(found(first, "`rack` or `edges`")),
            (_, Some(_)) => return Err(found(first, "`rack`")),
        }
        line.end()
    }

    fn edges(&mut self, line: &mut Line) -> Result<(), TextError> {
        loop {
            let (first, place) = position(line)?;
            line.word("-", "`-` and the other position of the edge")?;
            let (second, _) = position(line)?;
            if self.edges.len() == MOST_EDGES {
                return Err(TextError::at(place, format!("at most {MOST_EDGES} edges")));
            }
            self.edges.push(((first.min(second), first.max(second)), place.line));
            if line.is_at_end() {
                return Ok(());
            }
        }
    }

    fn rack(&mut self, line: &mut Line) -> Result<(), TextError> {
        let (number, place) = line.number_up_to(MOST_RACKS, "a rack's number, from 1")?;
        if number == 0 {
            return Err(TextError::at(place, "a rack's number, from 1"));
        }
        line.word(":", "`:` after the rack's number")?;
        let (start, _) = position(line)?;
        line.word("->", "`->` and the rack's goal")?;
        let (goal, _) = position(line)?;
        if let Some(before) = self.racks.get(&number) {
            let line = before.place.line;
            return Err(TextError::at(place, format!("another rack: line {line} has rack {number} already")));
        }
        self.racks.insert(number, Rack { start, goal, place });
        Ok(())
    }

    /// The order, if there is a floor and the racks are numbered without a gap.
    fn finish(mut self, end: Place) -> Result<(Written, Lines), TextError> {
        let Some(floor) = self.floor else {
            return Err(TextError::at(end, format!("{FIRST}; found the end of the text")));
        };
        for (index, (&number, rack)) in self.racks.iter().enumerate() {
            if number != index + 1 {
                let missing = index + 1;
                let expected = format!("rack {missing}: racks are numbered from 1 without a gap");
                return Err(TextError::at(rack.place, expected));
            }
        }
        // a record has its edges in ascending order, whatever order they were written in
        self.edges.sort();
        let starts = self.racks.values().map(|rack| rack.start).collect();
        let goals = self.racks.values().map(|rack| rack.goal).collect();
        let lines = Lines {
            edges: self.edges.iter().map(|edge| edge.1).collect(),
            racks: self.racks.values().map(|rack| rack.place.line).collect(),
        };
        let (positions, edges) = match floor {
            Floor::Model(model) => return Ok((Written::Short(ShortOrder { model, starts, goals }), lines)),
            Floor::Grid { rows, columns } => (rows * columns, grid_edges(rows, columns)),
            Floor::Positions(positions) => (positions, self.edges.iter().map(|edge| edge.0).collect()),
        };
        Ok((Written::Full(Order { positions, edges, starts, goals }), lines))
    }
}

fn position(line: &mut Line) -> Result<(usize, Place), TextError> {
    line.number_up_to(HIGHEST_POSITION, "a position, from 0 to 63")
}

/// The rows and columns of a grid. Of more than 64 positions no record can hold the edges.
fn grid(line: &mut Line) -> Result<Floor, TextError> {
    let (rows, place) = line.number_up_to(HIGHEST_POSITION + 1, "the floor's rows, from 1 to 64")?;
    line.word("x", "`x` and the floor's columns")?;
    let (columns, _) = line.number_up_to(HIGHEST_POSITION + 1, "the floor's columns, from 1 to 64")?;
    match rows * columns > HIGHEST_POSITION + 1 {
        true => Err(TextError::at(place, "rows times columns of at most 64")),
        false => Ok(Floor::Grid { rows, columns }),
    }
}

/// The edges between side neighbours, positions numbered row by row, in a record's order.
pub fn grid_edges(rows: usize, columns: usize) -> Vec<(usize, usize)> {
    let mut edges = Vec::new();
    for position in 0..rows * columns {
        if (position + 1) % columns != 0 {
            edges.push((position, position + 1));
        }
        if position + columns < rows * columns {
            edges.push((position, position + columns));
        }
    }
    edges
}

/// The rows and columns of a floor that is a grid; of several, the fewest rows.
pub fn as_grid(order: &Order) -> Option<(usize, usize)> {
    (1..=order.positions)
        .filter(|rows| order.positions % rows == 0)
        .map(|rows| (rows, order.positions / rows))
        .find(|&(rows, columns)| grid_edges(rows, columns) == order.edges)
}

/// How many edges the canonical text has on a line.
const EDGES_ON_A_LINE: usize = 10;

/// The canonical text of an order.
pub fn write(order: &Order) -> String {
    let mut text = String::new();
    match as_grid(order) {
        Some((rows, columns)) => text += &format!("floor {rows}x{columns}\n"),
        None => {
            text += &format!("positions {}\n", order.positions);
            for edges in order.edges.chunks(EDGES_ON_A_LINE) {
                let edges: Vec<String> =
                    edges.iter().map(|(lower, higher)| format!("{lower}-{higher}")).collect();
                text += &format!("edges {}\n", edges.join(" "));
            }
        }
    }
    text + &write_racks(&order.starts, &order.goals)
}

/// The canonical text of a short order.
pub fn write_short(order: &ShortOrder) -> String {
    format!("model {}\n", order.model) + &write_racks(&order.starts, &order.goals)
}

fn write_racks(starts: &[usize], goals: &[usize]) -> String {
    let rack = |(index, (start, goal))| format!("rack {}: {start} -> {goal}\n", index + 1);
    starts.iter().zip(goals).enumerate().map(rack).collect()
}
