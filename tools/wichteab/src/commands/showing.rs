//! `show`, `picture` and `play`.

use super::checking::{season_refused, second, Second};
use super::plans::{planned, timetabled};
use super::Outcome;
use crate::arguments::Arguments;
use crate::input::{self, Form};
use crate::library::{self, Refusal};
use crate::records::{plan_edition, step_of_record, Order, Plan, ShortOrder, Timetable};
use crate::words::{words, Given};
use crate::{calls, output, picture as pictures, player, show as shown, text, Failure};

const KINDS: [&str; 5] = ["order", "short", "plan", "timetable", "season"];

pub fn show(arguments: &Arguments) -> Outcome {
    let first = arguments.file(0);
    let (kind, name) = match KINDS.contains(&first) {
        true => (Some(first), arguments.file(1)),
        false if arguments.files.len() > 1 => {
            let kinds = KINDS.join(", ");
            return Err(Failure::WrongUse(format!("{first} is no kind of record; kinds are {kinds}")));
        }
        false => (None, first),
    };
    let bytes = input::bytes(name)?;
    let kind = kind.or_else(|| kind_of(&bytes)).ok_or_else(|| {
        Failure::WrongUse(format!("say what {} is: show {}", input::shown_name(name), KINDS.join("|")))
    })?;
    let text = match kind {
        "order" => order_text(arguments, name, bytes, false)?,
        "short" => order_text(arguments, name, bytes, true)?,
        "plan" => plan_text(arguments, &bytes)?,
        "timetable" => timetable_text(arguments, &bytes)?,
        _ => season_text(&bytes)?,
    };
    output::text(arguments, &text)
}

/// The kind that the bytes show. Orders, plans and seasons of the same bytes would have other lengths; a plan and a
/// timetable may share theirs.
fn kind_of(bytes: &[u8]) -> Option<&'static str> {
    if input::begins_as_text(bytes) || library::order_check(bytes).is_ok() {
        return Some("order");
    }
    if calls::expanded(bytes).is_ok() {
        return Some("short");
    }
    let fits = [
        ("plan", calls::plan_form(bytes).is_ok()),
        ("timetable", calls::timetable_form(bytes).is_ok()),
        ("season", library::season_report(bytes).is_ok()),
    ];
    let mut kinds = fits.iter().filter(|(_, fits)| *fits).map(|(kind, _)| *kind);
    kinds.next().filter(|_| kinds.next().is_none())
}

/// An order's text, or a short order's where it is one or has to be.
fn order_text(arguments: &Arguments, name: &str, bytes: Vec<u8>, short: bool) -> Result<String, Failure> {
    let form = match (short, arguments.value("from")) {
        (_, Some("text")) => Form::Text,
        (false, Some("record")) => Form::Record,
        (true, _) if !input::begins_as_text(&bytes) => Form::Short,
        (_, Some(_)) => Form::Short,
        (_, None) => input::form(&bytes),
    };
    let order = input::order_in(form, name, bytes)?;
    order.accepted(library::order_check(&order.record), Given::default())?;
    match &order.short {
        Some(record) if short => Ok(text::write_short(&ShortOrder::of_record(record))),
        None if short => Err(Failure::WrongUse(format!("{} names no model", order.name))),
        _ => Ok(text::write(&Order::of_record(&order.record))),
    }
}

fn refused(refusal: Refusal, given: Given) -> Failure {
    Failure::Refused(format!("refused {}", words(refusal, &given)))
}

/// A plan's text. With its order a plan of edition one is shown with racks: the library converts it.
fn plan_text(arguments: &Arguments, plan: &[u8]) -> Result<String, Failure> {
    let given = Given { plan: Some(plan), ..Given::default() };
    calls::plan_form(plan).map_err(|refusal| refused(refusal, given))?;
    let Some(name) = arguments.value("order") else { return Ok(shown::plan(&Plan::of_record(plan))) };
    let order = input::order_of_file(name, arguments)?;
    let with_racks = order.accepted(calls::in_edition(&order.record, plan, 2), given)?;
    let plan = Plan { edition: plan_edition(plan), ..Plan::of_record(&with_racks) };
    Ok(shown::plan(&plan))
}

fn timetable_text(arguments: &Arguments, timetable: &[u8]) -> Result<String, Failure> {
    let given = Given { timetable: Some(timetable), ..Given::default() };
    let Some(number) = arguments.value("step") else {
        calls::timetable_form(timetable).map_err(|refusal| refused(refusal, given))?;
        return Ok(shown::timetable(&Timetable::of_record(timetable)));
    };
    let number: u64 =
        number.parse().map_err(|_| Failure::WrongUse(format!("--step takes a number, not {number}")))?;
    let (offset, length) = library::timetable_step(timetable, number)
        .map_err(|refusal| refused(refusal, Given { step: Some(number), ..given }))?;
    Ok(shown::step(number as usize, &step_of_record(&timetable[offset..offset + length])))
}

fn season_text(season: &[u8]) -> Result<String, Failure> {
    library::season_report(season).map_err(|refusal| season_refused(season, refusal))?;
    Ok(shown::season(season))
}

pub fn picture(arguments: &Arguments) -> Outcome {
    let order = input::order(arguments, 0)?;
    order.accepted(library::order_check(&order.record), Given::default())?;
    output::text(arguments, &pictures::picture(&Order::of_record(&order.record)))
}

pub fn play(arguments: &Arguments) -> Outcome {
    let order = input::order(arguments, 0)?;
    let timetable = match arguments.files.get(1) {
        None => timetabled(&order, &planned(&order)?)?,
        Some(name) => {
            let bytes = input::bytes(name)?;
            match second(arguments, &order, &bytes)? {
                Second::Plan { .. } => timetabled(&order, &bytes)?,
                Second::Timetable { .. } | Second::Both => bytes,
            }
        }
    };
    let given = Given { timetable: Some(&timetable), ..Given::default() };
    order.accepted(library::timetable_check(&order.record, &timetable), given)?;
    let title = order.name.rsplit('/').next().unwrap_or(&order.name);
    let page = player::page(title, &Order::of_record(&order.record), &Timetable::of_record(&timetable));
    output::text(arguments, &page)
}
