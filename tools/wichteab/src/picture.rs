//! An order as an SVG picture: the floor twice, with the racks at their starts and at their goals. The parts of a floor's
//! drawing are also those that the player's page begins with.
//!
//! A tile is drawn for each position. The upper part of it is the rack's; below stand the position's number and, in a
//! box, the number of the rack whose goal it is. A rack at its goal has another colour and a check mark.

use crate::layout::{layout, Layout, Point};
use crate::records::Order;
use std::fmt::Write;

/// The colours and fonts of a floor, light and dark.
pub(crate) const STYLE: &str = include_str!("floor.css");

/// Between the two floors, and the height of their headings.
const GAP: i32 = 60;
const HEADING: i32 = 56;

/// The picture of an order, start and goal side by side.
pub fn picture(order: &Order) -> String {
    let layout = layout(order.positions, &order.edges);
    let (width, height) = (2 * layout.width + GAP, layout.height + HEADING);
    let mut svg = format!(
        "<svg xmlns=\"http://www.w3.org/2000/svg\" class=\"floor\" role=\"img\" aria-labelledby=\"name description\" \
         viewBox=\"0 0 {width} {height}\" width=\"{}\" height=\"{}\">\n<title id=\"name\">{}: start and goal</title>\n\
         <desc id=\"description\">{}</desc>\n<style>\n{STYLE}</style>\n\
         <rect class=\"paper\" width=\"{width}\" height=\"{height}\"/>\n",
        width * 7 / 10,
        height * 7 / 10,
        in_words(order, &layout),
        racks_in_words(order),
    );
    for (panel, heading, places, left) in
        [("start", "Start", &order.starts, 0), ("goal", "Goal", &order.goals, layout.width + GAP)]
    {
        let _ = write!(
            svg,
            "<g data-panel=\"{panel}\" transform=\"translate({left} {HEADING})\">\n\
             <text class=\"heading\" x=\"{}\" y=\"-8\">{heading}</text>\n{}{}{}{}</g>\n",
            layout.width / 2,
            edges(order, &layout),
            tiles(&layout),
            labels(order, &layout, places),
            racks(order, &layout, places),
        );
    }
    svg + "</svg>\n"
}

/// The floor in a few words: "A grid of 3 × 4 positions with 10 racks, 2 vacant".
pub(crate) fn in_words(order: &Order, layout: &Layout) -> String {
    use crate::layout::Kind;
    let racks = counted(order.starts.len(), "rack");
    let vacant = order.positions.saturating_sub(order.starts.len());
    let floor = match layout.kind {
        Kind::Grid { rows, columns } => format!("A grid of {rows} × {columns} positions"),
        Kind::Oval => format!("A ring of {} positions", order.positions),
        Kind::Lattice => {
            format!(
                "A floor of {} and {}",
                counted(order.positions, "position"),
                counted(order.edges.len(), "edge")
            )
        }
    };
    format!("{floor} with {racks}, {vacant} vacant")
}

/// "1 rack", "2 racks".
pub(crate) fn counted(count: usize, of: &str) -> String {
    format!("{count} {of}{}", if count == 1 { "" } else { "s" })
}

fn racks_in_words(order: &Order) -> String {
    let one = |(index, (start, goal)): (usize, (&usize, &usize))| {
        format!("rack {} from {start} to {goal}", index + 1)
    };
    let all: Vec<String> = order.starts.iter().zip(&order.goals).enumerate().map(one).collect();
    if all.is_empty() {
        "No racks.".to_string()
    } else {
        format!("{}.", all.join(", "))
    }
}

/// All edges as one path.
pub(crate) fn edges(order: &Order, layout: &Layout) -> String {
    let mut path = String::new();
    for (&(a, b), bow) in order.edges.iter().zip(&layout.bows) {
        let ((x, y), (to_x, to_y)) = (layout.places[a], layout.places[b]);
        let _ = match bow {
            None => write!(path, "M{x} {y}L{to_x} {to_y}"),
            Some((bow_x, bow_y)) => write!(path, "M{x} {y}Q{bow_x} {bow_y} {to_x} {to_y}"),
        };
    }
    format!("<path class=\"edges\" d=\"{path}\"/>\n")
}

/// A tile for each position.
pub(crate) fn tiles(layout: &Layout) -> String {
    let tile = |(position, (x, y)): (usize, &Point)| {
        let (left, top) = (x - 40, y - 40);
        format!(
            "<rect class=\"tile\" data-tile=\"{position}\" x=\"{left}\" y=\"{top}\" width=\"80\" height=\"80\" rx=\"17\"/>\n"
        )
    };
    layout.places.iter().enumerate().map(tile).collect()
}

/// Under each tile's rack the position's number, and in a box the rack whose goal it is. `now` has the racks' places.
pub(crate) fn labels(order: &Order, layout: &Layout, now: &[usize]) -> String {
    let mut labels = String::new();
    for (position, (x, y)) in layout.places.iter().enumerate() {
        let _ =
            writeln!(labels, "<text class=\"position\" x=\"{}\" y=\"{}\">{position}</text>", x - 33, y + 33);
    }
    for (index, &goal) in order.goals.iter().enumerate() {
        let (x, y) = layout.places[goal];
        let rack = index + 1;
        let width = if rack < 10 { 22 } else { 29 };
        let met = if now[index] == goal { " met" } else { "" };
        let _ = writeln!(
            labels,
            "<g class=\"goal{met}\" data-goal-of=\"{rack}\" data-position=\"{goal}\">\
             <rect x=\"{}\" y=\"{}\" width=\"{width}\" height=\"20\" rx=\"6\"/><text x=\"{}\" y=\"{}\">{rack}</text></g>",
            x + 35 - width,
            y + 16,
            f64::from(x + 35) - f64::from(width) / 2.0,
            y + 33,
        );
    }
    labels
}

/// The racks where they are now. The text of a rack at its goal makes room for the check mark.
pub(crate) fn racks(order: &Order, layout: &Layout, now: &[usize]) -> String {
    let mut racks = String::new();
    for (index, (&position, &goal)) in now.iter().zip(&order.goals).enumerate() {
        let (x, y) = layout.places[position];
        let (home, text_at) = if position == goal { (" home", HOME_TEXT_AT) } else { ("", 0) };
        let rack = index + 1;
        let long = if rack < 10 { "" } else { " long" };
        let _ = writeln!(
            racks,
            "<g class=\"rack{long}{home}\" data-rack=\"{rack}\" data-position=\"{position}\" transform=\"translate({x} {y})\">\
             <rect x=\"-34\" y=\"-35\" width=\"68\" height=\"47\" rx=\"12\"/><text x=\"{text_at}\" y=\"0\">{rack}</text>\
             <path class=\"check\" d=\"M16 -10L21 -5L29 -17\"/></g>"
        );
    }
    racks
}

/// Where the middle of the number of a rack at its goal is, across.
pub(crate) const HOME_TEXT_AT: i32 = -11;
