//! `order`, `carry` and `one-vacancy`: what is asked of an order alone.

use super::Outcome;
use crate::arguments::Arguments;
use crate::records::{Order, Plan, ShortOrder};
use crate::words::Given;
use crate::{calls, input, library, output, show, text, Failure};

pub fn order(arguments: &Arguments) -> Outcome {
    let order = input::order(arguments, 0)?;
    order.accepted(library::order_check(&order.record), Given::default())?;
    match (arguments.value("to"), &order.short) {
        (Some("short"), None) => {
            Err(Failure::WrongUse(format!("{} names no model: it has no short order", order.name)))
        }
        (Some("short"), Some(short)) => {
            output::record(arguments, short, || text::write_short(&ShortOrder::of_record(short)))
        }
        _ => output::record(arguments, &order.record, || text::write(&Order::of_record(&order.record))),
    }
}

pub fn carry(arguments: &Arguments) -> Outcome {
    let order = input::order(arguments, 0)?;
    let (start, goal, plan) = order.accepted(calls::carried(&order.record), Given::default())?;
    if let Some(name) = arguments.value("output") {
        output::file(name, &plan)?;
    }
    output::print(&format!("from {start} to {goal}\n{}", show::plan(&Plan::of_record(&plan))))
}

pub fn one_vacancy(arguments: &Arguments) -> Outcome {
    let order = input::order(arguments, 0)?;
    let impossible = order.accepted(library::one_vacancy(&order.record), Given::default())?;
    output::print(if impossible { "impossible\n" } else { "not judged\n" })
}
