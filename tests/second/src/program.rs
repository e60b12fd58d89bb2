//! "Programs": what the programs print for an input.

use crate::answer::Refusal;
use crate::making;
use crate::models;
use crate::order;
use crate::plan;
use crate::planning;
use crate::record::{pair, positions};
use crate::season;
use crate::timetable::step_length;

/// "Each program reads at most 65,536 bytes and judges those."
const READ: usize = 65_536;
/// "The plan program … lends 65,536 bytes", and "now serves n up to 15"; "The timetable program … lends 65,536
/// bytes".
const LENT: usize = 65_536;

/// The family word: "10 to 19 order, 20 to 29 floor, 30 to 39 plan, 40 to 49 timetable". Any other number is of none.
fn family(number: u8) -> &'static str {
    match number / 10 {
        1 => "order",
        2 => "floor",
        3 => "plan",
        4 => "timetable",
        _ => "other",
    }
}

/// "one line and no other, `refused`, number, place and family, with single spaces between and the
/// numbers in decimal"
fn refusal(Refusal { number, place }: Refusal) -> String {
    format!("refused {number} {place} {}\n", family(number))
}

/// "Printed whole, first steps and moves in all, then step number and its moves".
fn lines(s: u32, record: &[u8]) -> String {
    let mut steps = String::new();
    let mut total = 0;
    let mut rest = &record[3..];
    for step in 1..=s {
        let c = rest[0];
        steps += &step.to_string();
        for index in 0..usize::from(c) {
            let (left, entered) = positions(pair(&rest[1..], index));
            steps += &format!(" {left}>{entered}");
        }
        steps.push('\n');
        total += usize::from(c);
        rest = &rest[step_length(c)..];
    }
    format!("steps {s} moves {total}\n{steps}")
}

/// What the timetable program prints.
pub fn timetable_program(input: &[u8]) -> String {
    let input = &input[..input.len().min(READ)];
    // "The order ends where its counts say, and all the rest is the plan."
    let end = order::length(input).map_or(input.len(), |length| length.min(input.len()));
    let (order, plan) = input.split_at(end);
    let mut buffer = vec![0; LENT];
    match making::make(order, plan, &mut buffer) {
        Err(refused) => refusal(refused),
        Ok(s) => lines(s, &buffer),
    }
}

/// What the season program prints: "the lines `accepted`, `refused`, `steps`, `moves` and `parallelism`, in that order,
/// each followed by a space and its number; with no steps the last reads `parallelism none`".
pub fn season_program(input: &[u8]) -> String {
    match season::report(&input[..input.len().min(READ)]) {
        Err(refused) => refusal(refused),
        Ok(report) => {
            let season::Report { accepted, refused, steps, moves } = report;
            let parallelism =
                report.parallelism().map_or("none".to_string(), |quotient| quotient.to_string());
            format!("accepted {accepted}\nrefused {refused}\nsteps {steps}\nmoves {moves}\nparallelism {parallelism}\n")
        }
    }
}

/// What the order program writes for a short order: "It is written out as a full order". No order is longer than 576
/// bytes, so that its buffer is long enough.
pub fn order_program(input: &[u8]) -> Vec<u8> {
    match models::expand(&input[..input.len().min(READ)], 576) {
        Err(refused) => refusal(refused).into_bytes(),
        Ok(record) => record,
    }
}

/// What is wrong with what the plan program wrote, in words. It "reads an order from standard input … and
/// writes the plan record", of which the moves are free. "On a refusal a program prints one line and no
/// other".
pub fn plan_program_fault(input: &[u8], written: &[u8]) -> Option<String> {
    let order = &input[..input.len().min(READ)];
    if let Err(refused) = planning::judge_call(order, LENT) {
        let line = refusal(refused);
        return (written != line.as_bytes()).then(|| format!("not the line {line:?}"));
    }
    match plan::check(order, written) {
        Err(refused) => Some(format!("the plan checker answers {refused:?}")),
        Ok(k) => {
            let before = vec![0; LENT];
            let after = [written, &before[written.len()..]].concat();
            planning::fault(order, &before, &after, Ok(k))
        }
    }
}
