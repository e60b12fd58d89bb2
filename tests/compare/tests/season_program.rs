//! The season program, as a user runs it: standard input in, standard output out. What it has to print is written here
//! from document 02, or comes from the second implementation.

use compare::programs;
use compare::proved;
use compare::random::Random;
use compare::seasons::{self, DAMAGES, SHORTEST};
use second::program::season_program;

/// What the program prints for this input.
fn printed(input: &[u8]) -> String {
    String::from_utf8(programs::written("season_main", input)).expect("ASCII")
}

/// The case book's order with its timetable: two steps of two moves.
const PAIR: [u8; 25] = [
    0x08, 0x0A, 0x08, 0x00, 0x10, 0x02, 0x04, 0x20, 0x43, 0x08, 0x30, 0x03, 0x0C, 0x00, 0x00, 0x00, 0x08,
    0x02, 0x00, 0x10, 0xC2, 0x02, 0x04, 0x30, 0x80,
];

#[test]
fn one_pair() {
    assert_eq!(printed(&PAIR), "accepted 1\nrefused 0\nsteps 2\nmoves 4\nparallelism 2000\n");
}

#[test]
fn no_pairs_and_no_steps() {
    assert_eq!(printed(&[]), "accepted 0\nrefused 0\nsteps 0\nmoves 0\nparallelism none\n");
    assert_eq!(printed(&SHORTEST.repeat(2)), "accepted 2\nrefused 0\nsteps 0\nmoves 0\nparallelism none\n");
    // an order without positions and a timetable without steps: whole, and refused
    assert_eq!(printed(&[0; 6]), "accepted 0\nrefused 1\nsteps 0\nmoves 0\nparallelism none\n");
}

#[test]
fn a_refused_pair_is_passed_over() {
    // in the middle the case book's pair with a spare bit of its order set
    let mut season = PAIR.repeat(3);
    season[25 + 2] |= 1;
    assert_eq!(printed(&season), "accepted 2\nrefused 1\nsteps 4\nmoves 8\nparallelism 2000\n");
}

#[test]
fn rounded_down() {
    // with the step 0>1 on two positions: 5 moves in 3 steps
    let single = [0x04, 0x02, 0x04, 0x00, 0x10, 0x01, 0x00, 0x00, 0x04, 0x01, 0x00, 0x10];
    let season = [&PAIR[..], &single].concat();
    assert_eq!(printed(&season), "accepted 2\nrefused 0\nsteps 3\nmoves 5\nparallelism 1666\n");
}

#[test]
fn cut_inside_a_pair() {
    let season = PAIR.repeat(2);
    // in a head, in the edges, between order and timetable, in the timetable's head, between steps, in a step
    for cut in [1, 8, 14, 16, 17, 21, 22, 24] {
        assert_eq!(printed(&season[..cut]), "refused 46 1 timetable\n");
        assert_eq!(printed(&season[..25 + cut]), "refused 46 2 timetable\n");
    }
}

/// "Each program reads at most 65,536 bytes and judges those." A longer season is cut there; where that is between two
/// pairs, it looks like a shorter one. The library has no such limit.
#[test]
fn a_season_of_more_than_65_536_bytes() {
    // 5 bytes with one edge, and 3: 8,192 pairs are just what is read
    let pair = [0x04, 0x02, 0x00, 0x00, 0x10, 0x00, 0x00, 0x00];
    let longer = pair.repeat(10_000);
    let shown = "refused 0\nsteps 0\nmoves 0\nparallelism none\n";
    assert_eq!(printed(&longer), format!("accepted 8192\n{shown}"));
    assert_eq!(printed(&pair.repeat(8_192)), format!("accepted 8192\n{shown}"));
    let mut numbers = [0; 5];
    assert_eq!(proved::season_report(&longer, &mut numbers), 0);
    assert_eq!(numbers, [10_000, 0, 0, 0, u64::MAX]);
    // elsewhere the cut is inside a pair: 2,621 pairs of 25 bytes, and 11 bytes of the next
    assert_eq!(printed(&PAIR.repeat(3_000)), "refused 46 2622 timetable\n");
    // 65,536 bytes hold fewer than 10,923 pairs, so that the program never says 47
    assert_eq!(printed(&SHORTEST.repeat(65_536)), "refused 46 10923 timetable\n");
}

#[test]
fn random_seasons_against_the_second_implementation() {
    let mut random = Random::new(0x5EED_7009);
    let mut reports = 0;
    for index in 0..1_000 {
        let pairs = random.between(0, 50);
        let season = seasons::damaged(&mut random, pairs, DAMAGES[index % DAMAGES.len()]);
        let expected = season_program(&season);
        assert!(printed(&season) == expected, "{expected}: {season:02X?}");
        reports += usize::from(expected.starts_with("accepted"));
    }
    assert!((200..800).contains(&reports), "{reports} of 1,000 are reports");
}
