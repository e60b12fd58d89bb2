//! Plans, timetables and seasons as text.

use crate::library;
use crate::records::{Order, Plan, Timetable};
use crate::text;
use crate::words::{words, Given};
use std::fmt::Write;

/// `moves 4 edition 2`, and a line for each move, with its rack where the plan names it: `1 0>1 rack 1`.
pub fn plan(plan: &Plan) -> String {
    let mut text = format!("moves {} edition {}\n", plan.moves.len(), plan.edition);
    for (index, (left, entered)) in plan.moves.iter().enumerate() {
        let _ = write!(text, "{} {left}>{entered}", index + 1);
        if let Some(rack) = plan.racks.get(index) {
            let _ = write!(text, " rack {rack}");
        }
        text.push('\n');
    }
    text
}

/// `steps 2 moves 4`, and a line for each step, as the timetable program prints them: `1 0>1 3>2`.
pub fn timetable(timetable: &Timetable) -> String {
    let mut text = format!("steps {} moves {}\n", timetable.steps.len(), timetable.moves());
    for (index, moves) in timetable.steps.iter().enumerate() {
        text += &step(index + 1, moves);
    }
    text
}

/// The line of one step.
pub fn step(number: usize, moves: &[(usize, usize)]) -> String {
    let moves: String = moves.iter().map(|(left, entered)| format!(" {left}>{entered}")).collect();
    format!("{number}{moves}\n")
}

/// The five lines that the season program prints.
pub fn report(report: &[u64; 5]) -> String {
    let [accepted, refused, steps, moves, parallelism] = report;
    let parallelism = match *parallelism {
        u64::MAX => "none".into(),
        number => number.to_string(),
    };
    format!(
        "accepted {accepted}\nrefused {refused}\nsteps {steps}\nmoves {moves}\nparallelism {parallelism}\n"
    )
}

/// Each pair of a season that the library has reported on: its order and its timetable, or why it was refused.
pub fn season(mut season: &[u8]) -> String {
    let mut shown = String::new();
    let mut number = 0;
    while let Some((order, timetable, rest)) = first_pair(season) {
        number += 1;
        let gap = if number == 1 { "" } else { "\n" };
        let _ = write!(shown, "{gap}pair {number}\n{}", pair(order, timetable));
        season = rest;
    }
    shown
}

fn first_pair(season: &[u8]) -> Option<(&[u8], &[u8], &[u8])> {
    let (order, rest) = season.split_at(library::order_length(season)?);
    let (timetable, rest) = rest.split_at(library::timetable_length(rest)?);
    Some((order, timetable, rest))
}

fn pair(order: &[u8], lent: &[u8]) -> String {
    match library::timetable_check(order, lent) {
        Err(refusal) => {
            let given = Given { order: Some(order), timetable: Some(lent), ..Given::default() };
            format!("refused {}\n", words(refusal, &given))
        }
        Ok(_) => text::write(&Order::of_record(order)) + &timetable(&Timetable::of_record(lent)),
    }
}
