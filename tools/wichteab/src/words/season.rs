//! 46 and 47, of seasons.

use super::counted;
use crate::library::{order_length, timetable_length, Refusal};

pub fn meaning(refusal: Refusal, season: &[u8]) -> Option<String> {
    let mut offset = 0;
    let before = match refusal.number {
        46 => (refusal.place as usize).checked_sub(1)?,
        _ => refusal.place as usize,
    };
    for _ in 0..before {
        offset += order_length(&season[offset..])?;
        offset += timetable_length(&season[offset..])?;
    }
    let left = season.len() - offset;
    match refusal.number {
        46 => {
            let part = match order_length(&season[offset..]) {
                Some(order) if timetable_length(&season[offset + order..]).is_none() => "timetable",
                Some(_) => return None,
                None => "order",
            };
            let whole = counted(season.len(), "byte");
            Some(format!(
                "the season's {whole} end inside its {part}; the pair begins at byte {}",
                offset + 1
            ))
        }
        47 if left > 0 => Some(format!("{} too many; a season has no more pairs", counted(left, "byte"))),
        _ => None,
    }
}
