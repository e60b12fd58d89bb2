//! "Season report": order and timetable pairs one after another.

use crate::answer::{refuse_at, Answer};
use crate::order;
use crate::timetable::{self, Counts};

/// "Given up to 65,535 order and timetable pairs".
const MOST: u32 = 65_535;

/// "how many were accepted, how many refused, and over the accepted ones the exact totals of steps and moves"
#[derive(Clone, Copy, Default, PartialEq, Eq, Debug)]
pub struct Report {
    pub accepted: u64,
    pub refused: u64,
    pub steps: u64,
    pub moves: u64,
}

impl Report {
    /// "the parallelism: moves divided by steps, in thousandths rounded down", none without steps.
    pub fn parallelism(&self) -> Option<u64> {
        (u128::from(self.moves) * 1000).checked_div(u128::from(self.steps)).map(|quotient| quotient as u64)
    }
}

/// The order, the timetable and what follows them; none where the bytes end before the pair does. "An order ends where
/// its counts say and a timetable after its last step; the next pair follows directly."
pub fn split_pair(bytes: &[u8]) -> Option<(&[u8], &[u8], &[u8])> {
    let order = order::length(bytes).filter(|&length| length <= bytes.len())?;
    let (order, behind) = bytes.split_at(order);
    let (timetable, rest) = behind.split_at(timetable::length(behind)?);
    Some((order, timetable, rest))
}

/// The report, or 46 or 47 with the pair's number; "the earliest pair decides".
pub fn report(mut bytes: &[u8]) -> Answer<Report> {
    let mut report = Report::default();
    let mut pairs = 0;
    while !bytes.is_empty() {
        if pairs == MOST {
            return refuse_at(47, MOST);
        }
        pairs += 1;
        let Some((order, timetable, rest)) = split_pair(bytes) else { return refuse_at(46, pairs) };
        match timetable::check(order, timetable) {
            Ok(Counts { steps, moves }) => {
                report.accepted += 1;
                report.steps += u64::from(steps);
                report.moves += u64::from(moves);
            }
            Err(_) => report.refused += 1,
        }
        bytes = rest;
    }
    Ok(report)
}
