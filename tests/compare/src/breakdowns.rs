//! The proved breakdown, read from the rows of bytes that crates/inspection writes: the row of positions,
//! the handles' starts in it, their left ends and their right ends, 64 bytes each.

use crate::proved;
use second::breakdown::Breakdown;

/// The bytes that the rows take.
pub const ROWS: usize = 256;

/// The proved breakdown of the order's floor, if it has one. Bytes behind the rows, and without a breakdown
/// every byte, have to stay as they were.
#[track_caller]
pub fn proved_breakdown(order: &[u8]) -> Option<Breakdown> {
    const UNTOUCHED: u8 = 0xA5;
    let mut buffer = [UNTOUCHED; ROWS + 8];
    let answer = proved::inspect_breakdown(order, &mut buffer);
    let (rows, behind) = buffer.split_at(ROWS);
    assert!(behind.iter().all(|&byte| byte == UNTOUCHED), "bytes behind the rows were written");
    if answer == 0 {
        assert!(rows.iter().all(|&byte| byte == UNTOUCHED), "nothing was found, and bytes were written");
        return None;
    }
    Some(read(rows, answer as usize & 0xFF, answer as usize >> 8))
}

fn read(rows: &[u8], ring: usize, handles: usize) -> Breakdown {
    let [order, starts, lefts, rights] = [0, 64, 128, 192].map(|from| &rows[from..from + 64]);
    let handle = |index: usize| {
        let inner = usize::from(starts[index])..usize::from(starts[index + 1]);
        [&[lefts[index]], &order[inner], &[rights[index]]].concat()
    };
    Breakdown { ring: order[..ring].to_vec(), handles: (0..handles).map(handle).collect() }
}

/// The inner positions of the longest handle.
pub fn longest_handle(breakdown: &Breakdown) -> usize {
    breakdown.handles.iter().map(|handle| handle.len() - 2).max().unwrap_or(0)
}
