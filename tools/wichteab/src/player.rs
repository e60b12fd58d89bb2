//! A timetable as one HTML page that plays it. Nothing is loaded from elsewhere: floor, steps, style and script are all in it.
//!
//! The page is complete before its script runs: it shows the floor at the start, and every step as text. The script reads
//! the order, the layout and the steps from the page's data, and moves the racks.

use crate::layout::{layout, Layout, SPACING};
use crate::picture;
use crate::records::{Order, Timetable};
use std::fmt::Write;

const TEMPLATE: &str = include_str!("player.html");
const STYLE: &str = include_str!("player.css");
const SCRIPT: &str = include_str!("player.js");

/// The page that plays a timetable. Order and timetable are ones that the timetable checker accepts; of others, moves
/// that leave a vacant position are left out.
pub fn page(title: &str, order: &Order, timetable: &Timetable) -> String {
    let layout = layout(order.positions, &order.edges);
    let moves: usize = timetable.steps.iter().map(Vec::len).sum();
    let home = order.starts.iter().zip(&order.goals).filter(|(start, goal)| start == goal).count();
    let steps = timetable.steps.len();
    let summary = format!(
        "{}. {}, {}.",
        picture::in_words(order, &layout),
        picture::counted(steps, "step"),
        picture::counted(moves, "move")
    );
    let spacings = |length: i32| format!("{}.{:02}", length / SPACING, length % SPACING);
    filled(
        TEMPLATE,
        &[
            ("title", &escaped(title)),
            ("style", &format!("{}{STYLE}", picture::STYLE)),
            ("summary", &summary),
            ("columns", &spacings(layout.width)),
            ("rows", &spacings(layout.height)),
            ("floor", &floor(order, &layout)),
            ("steps", &steps.to_string()),
            ("moves", &moves.to_string()),
            ("home", &home.to_string()),
            ("racks", &order.starts.len().to_string()),
            ("opening", &opening(steps, home == order.goals.len())),
            ("list", &list(order, timetable)),
            ("data", &data(order, timetable, &layout)),
            ("script", SCRIPT),
        ],
    )
}

/// The template with each `{{name}}` replaced by its value, in one pass: what a value contains is left alone.
fn filled(template: &str, values: &[(&str, &str)]) -> String {
    let mut page = String::new();
    let mut rest = template;
    while let Some((before, after)) = rest.split_once("{{") {
        let (name, behind) = after.split_once("}}").expect("the template closes each name");
        let (_, value) =
            values.iter().find(|(known, _)| *known == name).expect("the template's names are known");
        page.push_str(before);
        page.push_str(value);
        rest = behind;
    }
    page + rest
}

/// Text as it stands in HTML and in an attribute.
fn escaped(text: &str) -> String {
    let mut escaped = String::new();
    for letter in text.chars() {
        match letter {
            '&' => escaped.push_str("&amp;"),
            '<' => escaped.push_str("&lt;"),
            '>' => escaped.push_str("&gt;"),
            '"' => escaped.push_str("&quot;"),
            '\'' => escaped.push_str("&#39;"),
            _ => escaped.push(letter),
        }
    }
    escaped
}

/// The floor at the start. Trains are drawn above the tiles, and below the numbers and the racks.
fn floor(order: &Order, layout: &Layout) -> String {
    format!(
        "<svg class=\"floor\" id=\"floor\" role=\"img\" aria-label=\"{}\" viewBox=\"0 0 {} {}\">\n\
         {}{}<g id=\"trains\"></g>\n{}{}</svg>\n",
        picture::in_words(order, layout),
        layout.width,
        layout.height,
        picture::edges(order, layout),
        picture::tiles(layout),
        picture::labels(order, layout, &order.starts),
        picture::racks(order, layout, &order.starts),
    )
}

/// What is said before the first step, as the script says it.
fn opening(steps: usize, all_home: bool) -> String {
    let home = if all_home { " Every rack is at its goal." } else { "" };
    match steps {
        0 => format!("There are no steps.{home}"),
        _ => format!("Start. {} to come.{home}", picture::counted(steps, "step")),
    }
}

/// Every step as a line of text.
fn list(order: &Order, timetable: &Timetable) -> String {
    if timetable.steps.is_empty() {
        return "<p>This timetable has no steps.</p>\n".to_string();
    }
    let mut rack_at = vec![None; order.positions];
    for (index, &start) in order.starts.iter().enumerate() {
        rack_at[start] = Some(index + 1);
    }
    let mut list = String::from("<ol>\n");
    for step in &timetable.steps {
        let going: Vec<(usize, usize, usize)> =
            step.iter().filter_map(|&(left, entered)| Some((rack_at[left]?, left, entered))).collect();
        going.iter().for_each(|&(_, left, _)| rack_at[left] = None);
        going.iter().for_each(|&(rack, _, entered)| rack_at[entered] = Some(rack));
        let words: Vec<String> = going
            .iter()
            .map(|(rack, left, entered)| format!("rack {rack} from {left} to {entered}"))
            .collect();
        let words = if words.is_empty() { "no rack moves".to_string() } else { words.join(", ") };
        let _ = writeln!(list, "<li>{words}</li>");
    }
    list + "</ol>\n"
}

/// Order, timetable and layout for the script, as JSON. It has numbers only, so nothing in it can end the script element.
fn data(order: &Order, timetable: &Timetable, layout: &Layout) -> String {
    let pair = |a: &dyn std::fmt::Display, b: &dyn std::fmt::Display| format!("[{a},{b}]");
    let pairs = |list: &[(usize, usize)]| array(list.iter().map(|(a, b)| pair(a, b)));
    let bow = |bow: &Option<(i32, i32)>| bow.map_or("null".to_string(), |(x, y)| pair(&x, &y));
    format!(
        "{{\"positions\":{},\"edges\":{},\"starts\":{},\"goals\":{},\"steps\":{},\"places\":{},\"bows\":{},\"homeTextAt\":{}}}",
        order.positions,
        pairs(&order.edges),
        array(order.starts.iter().map(usize::to_string)),
        array(order.goals.iter().map(usize::to_string)),
        array(timetable.steps.iter().map(|step| pairs(step))),
        array(layout.places.iter().map(|(x, y)| pair(x, y))),
        array(layout.bows.iter().map(bow)),
        picture::HOME_TEXT_AT,
    )
}

fn array(items: impl Iterator<Item = String>) -> String {
    format!("[{}]", items.collect::<Vec<String>>().join(","))
}
