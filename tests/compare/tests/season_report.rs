//! Season reports: the proved function against the second implementation, its answer and each of the five numbers.

use compare::packed;
use compare::proved;
use compare::random::Random;
use compare::seasons::{self, DAMAGES, SHORTEST};
use compare::tally::{each_met, Hex, Tally};
use second::answer::Refusal;
use second::season::{self, Report};

/// The five numbers as the library writes them: no parallelism is all ones.
fn numbers(report: &Report) -> [u64; 5] {
    let Report { accepted, refused, steps, moves } = *report;
    [accepted, refused, steps, moves, report.parallelism().unwrap_or(u64::MAX)]
}

/// Both say the same of the season, and a refusal leaves the five numbers as they were.
#[track_caller]
fn compare(tally: &mut Tally, season: &[u8]) -> Result<Report, Refusal> {
    let before = [0x5A5A_5A5A_5A5A_5A5A; 5];
    let mut written = before;
    let second = season::report(season);
    tally.compare(proved::season_report(season, &mut written), packed::nothing(second), &[season]);
    let expected = second.as_ref().map_or(before, numbers);
    assert!(written == expected, "{written:?}, not {expected:?}, on {}", Hex(season));
    second
}

/// The number that the timetable checker gives each pair of a whole season, 0 for accepted.
fn numbers_of_pairs(mut season: &[u8], mut each: impl FnMut(u8)) {
    while let Some((order, timetable, rest)) = season::split_pair(season) {
        each(second::timetable::check(order, timetable).map_or_else(|refusal| refusal.number, |_| 0));
        season = rest;
    }
}

#[test]
fn whole_seasons_of_0_to_50_pairs() {
    let mut random = Random::new(0x5EED_5001);
    let mut tally = Tally::new("season_report, whole seasons");
    let mut pairs = Tally::new("season_report, their pairs");
    let (mut fractions, mut without_steps) = (0, 0);
    for _ in 0..12_000 {
        let count = random.between(0, 50);
        let season: Vec<u8> = (0..count).flat_map(|_| seasons::whole_pair(&mut random)).collect();
        let report = compare(&mut tally, &season).expect("whole");
        assert_eq!(report.accepted + report.refused, count as u64);
        numbers_of_pairs(&season, |number| pairs.count(u64::from(number)));
        // where rounding to the nearest would differ
        fractions += u64::from(report.steps > 0 && 1000 * report.moves % report.steps * 2 >= report.steps);
        without_steps += u64::from(report.parallelism().is_none());
    }
    println!(
        "season_report: {fractions} seasons round down by a half or more, {without_steps} have no steps"
    );
    assert!(fractions >= 1_000 && without_steps >= 100);
    tally.finish(12_000, &[0]);
    // a pair that is whole never meets 10 or 40
    pairs.finish(250_000, &[0, 11, 12, 13, 14, 41, 42, 43]);
}

#[test]
fn damaged_seasons_of_0_to_50_pairs() {
    let mut random = Random::new(0x5EED_5002);
    let mut tally = Tally::new("season_report, damaged seasons");
    let mut met = [0; DAMAGES.len()];
    for _ in 0..16_000 {
        let kind = random.below(DAMAGES.len());
        let count = random.between(0, 50);
        let season = seasons::damaged(&mut random, count, DAMAGES[kind]);
        let _ = compare(&mut tally, &season);
        met[kind] += 1;
    }
    each_met(&DAMAGES, &met);
    tally.finish(16_000, &[0, 46]);
}

/// Where a pair is cut.
const PLACES: [&str; 6] = [
    "the order's head",
    "its edges or racks",
    "between order and timetable",
    "the timetable's head",
    "between steps",
    "a step",
];

/// Which of them it is, so many bytes into a pair.
fn place_of(pair: &[u8], cut: usize) -> usize {
    let order = second::order::length(pair).expect("whole");
    if cut < 3 {
        return 0;
    }
    if cut < order {
        return 1;
    }
    if cut == order {
        return 2;
    }
    if cut < order + 3 {
        return 3;
    }
    let mut at = order + 3;
    while at < cut {
        at += second::timetable::step_length(pair[at]);
    }
    if at == cut {
        4
    } else {
        5
    }
}

#[test]
fn every_cut_of_sound_seasons() {
    let mut random = Random::new(0x5EED_5003);
    let mut tally = Tally::new("season_report, cut");
    let mut met = [0; PLACES.len()];
    for _ in 0..400 {
        let (season, begins) = seasons::sound(&mut random, 4);
        for end in 0..season.len() {
            let answer = compare(&mut tally, &season[..end]);
            let number = begins.iter().filter(|&&begin| begin <= end).count();
            let begin = begins[number - 1];
            if begin == end {
                // a cut between two pairs is a shorter season
                assert_eq!(answer.map(|report| report.accepted), Ok(number as u64 - 1));
            } else {
                assert_eq!(answer, Err(Refusal { number: 46, place: number as u32 }));
                met[place_of(&season[begin..], end - begin)] += 1;
            }
        }
    }
    each_met(&PLACES, &met);
    tally.close(100_000);
}

#[test]
fn the_most_pairs_and_one_more() {
    let mut tally = Tally::new("season_report, the most pairs");
    let most = SHORTEST.repeat(65_535);
    let report = compare(&mut tally, &most).expect("whole");
    assert_eq!(numbers(&report), [65_535, 0, 0, 0, u64::MAX]);
    // whatever follows, even a pair that is cut short, it follows pair 65,535
    for behind in 1..=SHORTEST.len() {
        let longer = [&most[..], &SHORTEST[..behind]].concat();
        assert_eq!(compare(&mut tally, &longer), Err(Refusal { number: 47, place: 65_535 }));
    }
    // a cut inside the last of them comes first
    let shorter = &most[..most.len() - 1];
    assert_eq!(compare(&mut tally, shorter), Err(Refusal { number: 46, place: 65_535 }));
    // pairs that are refused count too
    let refused = [0; 6].repeat(65_535);
    assert_eq!(compare(&mut tally, &refused).map(|report| report.refused), Ok(65_535));
    let longer = [&refused[..], &[0]].concat();
    assert_eq!(compare(&mut tally, &longer), Err(Refusal { number: 47, place: 65_535 }));
    tally.close(10);
}

#[test]
fn no_pairs_and_no_steps() {
    let mut tally = Tally::new("season_report, none");
    assert_eq!(compare(&mut tally, &[]), Ok(Report::default()));
    let report = compare(&mut tally, &SHORTEST.repeat(3)).expect("whole");
    assert_eq!(numbers(&report), [3, 0, 0, 0, u64::MAX]);
    tally.close(2);
}

/// The totals are certain from how the pair was made; the second implementation is asked about one pair.
#[track_caller]
fn large(pair: &[u8], pairs: usize, steps: u64, moves: u64) {
    let one = season::report(pair).expect("whole");
    assert_eq!(numbers(&one), [1, 0, steps, moves, 1000 * moves / steps]);
    let mut written = [0; 5];
    let answer = seasons::with_repeated(pair, pairs, |season| proved::season_report(season, &mut written));
    let pairs = pairs as u64;
    assert_eq!((answer, written), (0, [pairs, 0, pairs * steps, pairs * moves, 1000 * moves / steps]));
}

#[test]
fn totals_of_steps_above_32_bits() {
    // an order of 3 bytes and 4,194,298 steps without moves: 2²² bytes
    let head = 4_194_298u32 << 2;
    let mut pair = vec![0; 1 << 22];
    pair[0] = 0x02;
    pair[3..6].copy_from_slice(&head.to_be_bytes()[1..]);
    large(&pair, 1_025, 4_194_298, 0);
    assert!(1_025 * 4_194_298u64 > 1 << 32);
}

#[test]
fn totals_of_moves_above_32_bits() {
    // seven rows of nine positions: 506,890 steps of 56 moves, 85 bytes each, and 174 bytes are whole pages
    let (order, steps) = seasons::rows_of_nine(7);
    let pair = seasons::pair_of(&order, &steps, 506_890);
    large(&pair, 152, 506_890, 56 * 506_890);
    assert!(152 * 56 * 506_890u64 > 1 << 32);
}
