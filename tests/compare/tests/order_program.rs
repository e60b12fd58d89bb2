//! The order program, as a user runs it. Its lines are written here from the papers; what it writes for other
//! inputs is the second implementation's.

use std::fs;
use std::path::Path;

use compare::programs;
use compare::random::Random;
use compare::short_orders::{damaged, short_order, DAMAGES, MODELS};
use compare::tally::Hex;
use second::program::order_program;

/// What the program writes for this input, which is what the second implementation writes.
fn written(input: &[u8]) -> Vec<u8> {
    let written = programs::written("order_main", input);
    assert_eq!(written, order_program(input), "on {}", Hex(input));
    written
}

/// The line that it prints.
fn line(input: &[u8]) -> String {
    String::from_utf8(written(input)).expect("ASCII")
}

#[test]
fn the_stored_run() {
    // model 1, rack 1 from 0 to 5: the edges 0-1 0-3 1-2 1-4 2-5 3-4 4-5, then 0 and 5
    let stored = Path::new(env!("CARGO_MANIFEST_DIR")).join("../../crates/order_main");
    let short = fs::read(stored.join("stdin")).expect("it is read");
    assert_eq!(short, [1, 2, 0x00, 0x50]);
    let full = [0x0C, 0x0E, 0x04, 0x00, 0x10, 0x03, 0x04, 0x20, 0x44, 0x08, 0x50, 0xC4, 0x10, 0x50, 0x05];
    assert_eq!(fs::read(stored.join("stdout")).expect("it is read"), full);
    assert_eq!(written(&short), full);
}

#[test]
fn what_is_no_short_order() {
    // no input; one byte; a rack missing; the spare bit; a pad bit
    for input in [&[][..], &[1], &[1, 2], &[1, 1], &[1, 2, 0x00, 0x51]] {
        assert_eq!(line(input), "refused 50 0 other\n");
    }
    assert_eq!(line(&[0, 0]), "refused 51 0 other\n");
    assert_eq!(line(&[6, 0]), "refused 51 0 other\n");
    // a goal of n; a start shared
    assert_eq!(line(&[1, 2, 0x00, 0x60]), "refused 14 0 order\n");
    assert_eq!(line(&[1, 4, 0x04, 0x10, 0x02]), "refused 14 0 order\n");
}

#[test]
fn an_input_of_more_than_65_536_bytes() {
    for length in [65_535, 65_536, 65_537, 300_000] {
        let mut input = vec![5, 0];
        input.resize(length, 0);
        assert_eq!(line(&input), "refused 50 0 other\n");
    }
}

#[test]
fn random_short_orders() {
    let mut random = Random::new(0x5EED_A101);
    for turn in 0..600 {
        let (model, rows, columns) = MODELS[turn % MODELS.len()];
        let n = rows * columns;
        let m = random.between(0, n);
        let sound = short_order(&mut random, model, n, m);
        // n stands in the first seven bits
        assert_eq!(usize::from(written(&sound.record())[0] / 2), n);
        let damage = random.pick(&DAMAGES);
        if damage.fits(n, m) {
            written(&damaged(&mut random, &sound, n, 576, &[damage]).0);
        }
    }
}
