//! Floors by model code: a short order is written out as a full order.
//!
//! "A short order is model in 8 bits, m in 7, one zero bit, then starts, goals and pad as in an order."

use crate::answer::{refuse, Answer};
use crate::order;
use crate::record::{pack, packed_length, pad_is_set, pair};

/// "Five models are sold, as rows and columns: 1 is 2 by 3, 2 is 3 by 4, 3 is 4 by 4, 4 is 4 by 5, 5 is 8
/// by 8."
pub fn size(model: u8) -> Option<(usize, usize)> {
    match model {
        1 => Some((2, 3)),
        2 => Some((3, 4)),
        3 => Some((4, 4)),
        4 => Some((4, 5)),
        5 => Some((8, 8)),
        _ => None,
    }
}

/// "Positions run row by row, with edges between side neighbours": a step apart, in a row or in a column.
fn edges(rows: usize, columns: usize) -> Vec<u16> {
    let n = rows * columns;
    let place = |position: usize| (position / columns, position % columns);
    let beside = |a: usize, b: usize| {
        let ((row, column), (other_row, other_column)) = (place(a), place(b));
        row.abs_diff(other_row) + column.abs_diff(other_column) == 1
    };
    let pairs = (0..n).flat_map(|a| (a + 1..n).map(move |b| (a, b)));
    pairs.filter(|&(a, b)| beside(a, b)).map(|(a, b)| (a << 6 | b) as u16).collect()
}

/// The full order's record, or the refusal: 50, 51, 14 and 52, in this order.
pub fn expand(short: &[u8], buffer_length: usize) -> Answer<Vec<u8>> {
    // 50: "the short order's length or a spare or pad bit is wrong"
    let &[model, counted, ref racks @ ..] = short else { return refuse(50) };
    let m = usize::from(counted >> 1);
    if racks.len() != packed_length(m) || counted & 1 == 1 || pad_is_set(racks, m) {
        return refuse(50);
    }
    // 51: "the model is unknown"
    let Some((rows, columns)) = size(model) else { return refuse(51) };
    let record = full(rows, columns, (0..m).map(|index| pair(racks, index)).collect());
    // 14, as the full order meets it; none of 10 to 13 can apply to what is written
    order::check(&record)?;
    // 52: "the order buffer is shorter than the full record"
    if buffer_length < record.len() {
        return refuse(52);
    }
    Ok(record)
}

/// The order on this grid with these starts and goals, two to a pair.
fn full(rows: usize, columns: usize, racks: Vec<u16>) -> Vec<u8> {
    let mut pairs = edges(rows, columns);
    let head = (rows * columns) << 17 | pairs.len() << 9 | racks.len() << 2;
    pairs.extend(racks);
    let mut record = vec![0; 3 + packed_length(pairs.len())];
    record[..3].copy_from_slice(&(head as u32).to_be_bytes()[1..]);
    pack(pairs, &mut record[3..]);
    record
}

#[cfg(test)]
mod tests {
    use super::*;

    #[test]
    fn edge_counts_of_the_models() {
        let counts = [1, 2, 3, 4, 5].map(|model| {
            let (rows, columns) = size(model).expect("a model");
            edges(rows, columns).len()
        });
        assert_eq!(counts, [7, 17, 24, 31, 112]);
    }

    #[test]
    fn two_rows_of_three() {
        let expected = [(0, 1), (0, 3), (1, 2), (1, 4), (2, 5), (3, 4), (4, 5)];
        assert_eq!(edges(2, 3), expected.map(|(a, b)| a << 6 | b));
    }
}
