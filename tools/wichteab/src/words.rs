//! Words for refusals: number, place, and what it means in the records that were refused.
//!
//! The library has refused already. These functions look for what it met, and judge nothing: where the records do
//! not show it, the number's general sentence stands in.
//!
//! | module      | numbers                           |
//! |-------------|-----------------------------------|
//! | `general`   | all: a sentence without a record  |
//! | `order`     | 10 to 14, 50 to 52                |
//! | `floor`     | 20 to 29                          |
//! | `plan`      | 30 to 38                          |
//! | `timetable` | 40 to 45                          |
//! | `season`    | 46, 47                            |

mod floor;
mod general;
mod order;
mod plan;
mod season;
mod timetable;

use crate::library::Refusal;

pub use order::Named;

/// What a refused call was given.
#[derive(Clone, Copy, Default)]
pub struct Given<'a> {
    pub order: Option<&'a [u8]>,
    pub short_order: Option<&'a [u8]>,
    pub plan: Option<&'a [u8]>,
    pub timetable: Option<&'a [u8]>,
    pub season: Option<&'a [u8]>,
    /// The length of the lent buffer.
    pub buffer: Option<usize>,
    /// The step that was asked for.
    pub step: Option<u64>,
}

/// `32 at move 7: no edge joins 3 and 9`.
pub fn words(refusal: Refusal, given: &Given) -> String {
    let Refusal { number, place } = refusal;
    let place = match number {
        32 | 34 | 35 | 36 => format!(" at move {place}"),
        42 => format!(" at step {place}"),
        46 | 47 => format!(" at pair {place}"),
        _ => String::new(),
    };
    let meaning = meaning(refusal, given).unwrap_or_else(|| general::sentence(number).into());
    format!("{number}{place}: {meaning}")
}

/// What the records show; none if they do not.
fn meaning(refusal: Refusal, given: &Given) -> Option<String> {
    match refusal.number {
        // document 02 (a) has 14 among the short order's numbers
        14 if given.short_order.is_some() => order::short_meaning(14, given),
        10..=14 => order::meaning(refusal.number, given.order?).map(|(words, _)| words),
        20..=29 => floor::meaning(refusal.number, given),
        30..=38 => plan::meaning(refusal, given),
        40..=45 => timetable::meaning(refusal, given),
        46 | 47 => season::meaning(refusal, given.season?),
        50..=52 => order::short_meaning(refusal.number, given),
        _ => None,
    }
}

/// The edge or rack that a refused order's words speak of.
pub fn named(number: u8, given: &Given) -> Option<Named> {
    match given.short_order {
        Some(short) => order::short_named(number, short),
        None => order::meaning(number, given.order?)?.1,
    }
}

/// `1 byte`, `2 bytes`.
fn counted(count: usize, what: &str) -> String {
    match count {
        1 => format!("1 {what}"),
        _ => format!("{count} {what}s"),
    }
}

/// `1, 2 and 5`.
fn listed(numbers: &[usize]) -> String {
    let words: Vec<String> = numbers.iter().map(usize::to_string).collect();
    match words.split_last() {
        Some((last, [])) => last.clone(),
        Some((last, rest)) => format!("{} and {last}", rest.join(", ")),
        None => "none".into(),
    }
}

/// Where a floor's positions are told: `the floor's positions are 0 to 3`.
fn positions(count: usize) -> String {
    match count {
        1 => "the floor has position 0 alone".into(),
        _ => format!("the floor's positions are 0 to {}", count - 1),
    }
}
