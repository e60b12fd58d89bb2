//! `check` and `season`, and what a file beside an order is: a plan or a timetable.

use super::Outcome;
use crate::arguments::Arguments;
use crate::input::{self, OrderInput};
use crate::library::{self, Refusal};
use crate::progress::during;
use crate::records::order_counts;
use crate::words::{words, Given};
use crate::{output, show, Failure};

/// What the second file is, with what the library said of it.
pub enum Second {
    Plan {
        moves: u64,
    },
    Timetable {
        steps: u64,
        moves: u64,
    },
    /// Without steps and moves a plan and a timetable are the same bytes.
    Both,
}

pub fn check(arguments: &Arguments) -> Outcome {
    let order = input::order(arguments, 0)?;
    let Some(name) = arguments.files.get(1) else { return check_order(arguments, &order) };
    let bytes = input::bytes(name)?;
    output::print(&match second(arguments, &order, &bytes)? {
        Second::Plan { moves } => format!("accepted: plan, moves {moves}\n"),
        Second::Timetable { steps, moves } => format!("accepted: timetable, steps {steps} moves {moves}\n"),
        Second::Both => "accepted: plan or timetable, moves 0\n".into(),
    })
}

fn check_order(arguments: &Arguments, order: &OrderInput) -> Outcome {
    if arguments.has("plan") || arguments.has("timetable") {
        return Err(Failure::WrongUse("--plan and --timetable are of a second file".into()));
    }
    order.accepted(library::order_check(&order.record), Given::default())?;
    let (n, e, m) = order_counts(&order.record);
    let counts = format!("accepted: order, positions {n} edges {e} racks {m} vacant {}\n", n - m);
    if arguments.has("floor") {
        order.accepted(library::floor_check(&order.record), Given::default())?;
        return output::print(&(counts + "it can be planned\n"));
    }
    output::print(&counts)
}

/// Has the second file checked: as the option says, or as what its length fits.
pub fn second(arguments: &Arguments, order: &OrderInput, bytes: &[u8]) -> Result<Second, Failure> {
    order.accepted(library::order_check(&order.record), Given::default())?;
    let given = Given { plan: Some(bytes), timetable: Some(bytes), ..Given::default() };
    let plan = || during("checking the plan", || library::plan_check(&order.record, bytes));
    let timetable = || during("checking the timetable", || library::timetable_check(&order.record, bytes));
    let is_plan = |moves| Second::Plan { moves };
    let is_timetable = |(steps, moves)| Second::Timetable { steps, moves };
    match (arguments.has("plan"), arguments.has("timetable")) {
        (true, true) => return Err(Failure::WrongUse("--plan or --timetable, not both".into())),
        (true, false) => return order.accepted(plan(), given).map(is_plan),
        (false, true) => return order.accepted(timetable(), given).map(is_timetable),
        (false, false) => {}
    }
    match (plan(), timetable()) {
        (Ok(_), Ok(_)) => Ok(Second::Both),
        (Ok(moves), Err(_)) => Ok(is_plan(moves)),
        (Err(_), Ok(counts)) => Ok(is_timetable(counts)),
        (Err(as_plan), Err(as_timetable)) => Err(refused_as(order, given, as_plan, as_timetable)),
    }
}

/// The refusal of what the file's length shows it to be, or both where it shows neither or either.
fn refused_as(order: &OrderInput, given: Given, as_plan: Refusal, as_timetable: Refusal) -> Failure {
    let plan = order.words(as_plan, given);
    let timetable = order.words(as_timetable, given);
    Failure::Refused(match (as_plan.number == 30, as_timetable.number == 40) {
        (false, true) => format!("refused {plan}"),
        (true, false) => format!("refused {timetable}"),
        _ => format!("as a plan refused {plan}\nas a timetable refused {timetable}"),
    })
}

pub fn season(arguments: &Arguments) -> Outcome {
    let season = input::bytes(arguments.file(0))?;
    let report = during("judging the season", || library::season_report(&season));
    let report = report.map_err(|refusal| season_refused(&season, refusal))?;
    output::text(arguments, &show::report(&report))
}

pub fn season_refused(season: &[u8], refusal: Refusal) -> Failure {
    Failure::Refused(format!(
        "refused {}",
        words(refusal, &Given { season: Some(season), ..Given::default() })
    ))
}
