//! `plan`, `timetable`, `shorten` and `convert`: what is made of an order and a plan.

use super::Outcome;
use crate::arguments::Arguments;
use crate::input::{self, OrderInput};
use crate::library::Answer;
use crate::progress::during;
use crate::records::{Plan, Timetable};
use crate::words::Given;
use crate::{calls, output, show, Failure};

/// The edition that `--edition` names.
fn edition(arguments: &Arguments) -> Option<usize> {
    arguments.value("edition").map(|number| if number == "1" { 1 } else { 2 })
}

fn write_plan(arguments: &Arguments, plan: &[u8]) -> Outcome {
    output::record(arguments, plan, || show::plan(&Plan::of_record(plan)))
}

/// A plan for the order, by the library.
pub fn planned(order: &OrderInput) -> Result<Vec<u8>, Failure> {
    let answer = during("planning", || calls::planned(&order.record));
    order.accepted(answer, Given::default())
}

/// The timetable of the plan, by the library.
pub fn timetabled(order: &OrderInput, plan: &[u8]) -> Result<Vec<u8>, Failure> {
    let answer = during("making the timetable", || calls::timetabled(&order.record, plan));
    order.accepted(answer, Given { plan: Some(plan), ..Given::default() })
}

pub fn plan(arguments: &Arguments) -> Outcome {
    let order = input::order(arguments, 0)?;
    let mut plan = planned(&order)?;
    if edition(arguments) == Some(1) {
        plan = order.accepted(calls::converted(&order.record, &plan), Given::default())?;
    }
    write_plan(arguments, &plan)
}

pub fn timetable(arguments: &Arguments) -> Outcome {
    let order = input::order(arguments, 0)?;
    let plan = match arguments.files.get(1) {
        Some(name) => input::bytes(name)?,
        None => planned(&order)?,
    };
    let timetable = timetabled(&order, &plan)?;
    output::record(arguments, &timetable, || show::timetable(&Timetable::of_record(&timetable)))
}

/// Makes a plan of the order and the plan given.
fn remade(arguments: &Arguments, what: &str, call: impl Fn(&[u8], &[u8]) -> Answer<Vec<u8>>) -> Outcome {
    let order = input::order(arguments, 0)?;
    let plan = input::bytes(arguments.file(1))?;
    let answer = during(what, || call(&order.record, &plan));
    let made = order.accepted(answer, Given { plan: Some(&plan), ..Given::default() })?;
    write_plan(arguments, &made)
}

pub fn shorten(arguments: &Arguments) -> Outcome {
    remade(arguments, "shortening the plan", calls::shortened)
}

pub fn convert(arguments: &Arguments) -> Outcome {
    remade(arguments, "converting the plan", |order, plan| match edition(arguments) {
        Some(edition) => calls::in_edition(order, plan, edition),
        None => calls::converted(order, plan),
    })
}
