//! Every function that reads a plan: the checker, and the maker, the shortener and the converter, which write to a
//! buffer. What the checker refuses they refuse alike; what it accepts the converter restores.

use crate::packed;
use crate::proved;
use crate::tally::{Hex, Tally};
use crate::write::Edition;

/// The answer to an order and a plan, with a buffer to write to.
type Writer = fn(&[u8], &[u8], &mut [u8]) -> u64;

/// The writers, proved and of the second implementation.
const WRITERS: [(&str, Writer, Writer); 3] = [
    ("timetable_make", proved::timetable_make, |order, plan, buffer| {
        packed::count(second::making::make(order, plan, buffer))
    }),
    ("plan_shorten", proved::plan_shorten, |order, plan, buffer| {
        packed::count(second::shortening::shorten(order, plan, buffer))
    }),
    ("plan_convert", proved::plan_convert, |order, plan, buffer| {
        packed::count(second::converting::convert(order, plan, buffer))
    }),
];

/// Sees that every reader refuses the plan with this answer, which is certain from how it was made. Those that write
/// do so with an empty buffer and with one that is long enough, since 37, 38 and 44 come last, and write nothing.
#[track_caller]
pub fn all_refuse(tally: &mut Tally, order: &[u8], plan: &[u8], due: u64) {
    assert_ne!(due & 0xFF, 0, "it is to be refused");
    tally.compare(packed::count(second::plan::check(order, plan)), due, &[order, plan]);
    assert_eq!(proved::plan_check(order, plan), due, "{}| {}", Hex(order), Hex(plan));
    for length in [0, 3 * plan.len() + 9] {
        let mut buffer = vec![0xAA; length];
        for (name, proved, second) in WRITERS {
            assert_eq!(proved(order, plan, &mut buffer), due, "{name}: {}| {}", Hex(order), Hex(plan));
            assert_eq!(second(order, plan, &mut buffer), due, "{name}: {}| {}", Hex(order), Hex(plan));
        }
        assert!(buffer.iter().all(|&byte| byte == 0xAA), "the buffer changed: {}| {}", Hex(order), Hex(plan));
    }
}

/// "there and back restores an accepted plan byte for byte": what the converter has written is handed on alone, is
/// accepted too, and converted back it is the plan again.
#[track_caller]
pub fn restored(order: &[u8], plan: &[u8]) {
    let accepted = proved::plan_check(order, plan);
    assert_eq!(accepted & 0xFF, 0, "it is to be accepted");
    let mut there = vec![0x5A; Edition::of(plan).other().length((accepted >> 8) as usize)];
    let mut back = vec![0xA5; plan.len()];
    assert_eq!(proved::plan_convert(order, plan, &mut there), accepted, "{}| {}", Hex(order), Hex(plan));
    assert_eq!(proved::plan_check(order, &there), accepted, "{}| {}", Hex(order), Hex(&there));
    assert_eq!(proved::plan_convert(order, &there, &mut back), accepted, "{}| {}", Hex(order), Hex(&there));
    assert!(back == plan, "there and back it differs, on {}| {}", Hex(order), Hex(plan));
}
