//! Words for refusals. Every number of include/wichteab.h is met, or called up where the tool cannot meet it. The
//! records come from the tests' own writer, numbers and places are the second implementation's too, and the sentences
//! are written here.

use compare::random::Random;
use compare::write::{Edition, Move, Order, Plan, ShortOrder, Step, Timetable};
use compare::{orders, plans, seasons, timetables};
use wichteab_tool::library::{self, Answer, Refusal};
use wichteab_tool::words::{words, Given};

/// The floor F of the case book.
const F: [Move; 5] = [(0, 1), (0, 2), (1, 2), (1, 3), (2, 3)];

fn order(n: usize, edges: &[Move], starts: &[u8], goals: &[u8]) -> Order {
    Order { n, edges: edges.to_vec(), starts: starts.to_vec(), goals: goals.to_vec(), spare: 0, pad: 0 }
}

/// The order of "Programs": F, rack 1 from 0 to 3, rack 2 from 3 to 0.
fn worked() -> Order {
    order(4, &F, &[0, 3], &[3, 0])
}

fn path(n: u8) -> Vec<Move> {
    (1..n).map(|at| (at - 1, at)).collect()
}

fn ring(n: u8) -> Vec<Move> {
    let mut edges = path(n);
    edges.insert(1, (0, n - 1));
    edges
}

/// The words of a refusal, which has to be one, with the number and place that the second implementation gives.
fn refused<T: std::fmt::Debug, S: std::fmt::Debug>(
    answer: Answer<T>,
    second: second::answer::Answer<S>,
    given: &Given,
) -> String {
    let refusal = answer.expect_err("it is refused");
    let expected = second.expect_err("it is refused");
    assert_eq!((refusal.number, refusal.place), (expected.number, expected.place));
    words(refusal, given)
}

#[test]
fn of_orders() {
    let cut = worked().record()[..13].to_vec();
    let more = [worked().record(), vec![0]].concat();
    let cases = [
        (vec![], "10: the order has 0 bytes; its counts alone take 3"),
        (vec![8], "10: the order has 1 byte; its counts alone take 3"),
        (cut, "10: the order has 13 bytes; its length for 5 edges and 2 racks is 14"),
        (more, "10: the order has 15 bytes; its length for 5 edges and 2 racks is 14"),
        (order(0, &[], &[], &[]).record(), "11: the order has 0 positions; a floor has 1 to 64"),
        (order(65, &[], &[], &[]).record(), "11: the order has 65 positions; a floor has 1 to 64"),
        (Order { spare: 2, ..worked() }.record(), "12: a spare bit is set in byte 3 of the order"),
        (
            Order { pad: 1, ..worked() }.record(),
            "12: a pad bit is set in the last byte of the order, byte 14",
        ),
        (
            order(4, &[(0, 1), (1, 4)], &[], &[]).record(),
            "13: edge 2 is 1-4; the floor's positions are 0 to 3",
        ),
        (order(1, &[(0, 1)], &[], &[]).record(), "13: edge 1 is 0-1; the floor has position 0 alone"),
        (order(4, &[(2, 1)], &[], &[]).record(), "13: edge 1 is 2-1; the lower position comes first"),
        (order(4, &[(2, 2)], &[], &[]).record(), "13: edge 1 is 2-2; an edge joins two positions"),
        (order(4, &[(0, 1), (0, 1)], &[], &[]).record(), "13: edge 2 is 0-1; the edge before it is the same"),
        (
            order(4, &[(0, 1), (2, 3), (1, 2)], &[], &[]).record(),
            "13: edge 3 is 1-2; the edge before it is 2-3, and edges ascend",
        ),
        (order(4, &F, &[0, 9], &[1, 2]).record(), "14: rack 2 starts at 9; the floor's positions are 0 to 3"),
        (order(4, &F, &[0, 1, 0], &[1, 2, 3]).record(), "14: racks 1 and 3 both start at 0"),
        (
            order(4, &F, &[0, 1], &[1, 4]).record(),
            "14: rack 2 has the goal 4; the floor's positions are 0 to 3",
        ),
        (order(4, &F, &[0, 1, 2], &[1, 2, 2]).record(), "14: racks 2 and 3 both have the goal 2"),
    ];
    for (record, expected) in cases {
        let given = Given { order: Some(&record), ..Given::default() };
        assert_eq!(refused(library::order_check(&record), second::order::check(&record), &given), expected);
    }
}

#[test]
fn of_short_orders() {
    let short = |model, starts: &[u8], goals: &[u8]| ShortOrder {
        model,
        starts: starts.to_vec(),
        goals: goals.to_vec(),
        spare: 0,
        pad: 0,
    };
    let sound = short(1, &[0, 1, 2], &[3, 4, 5]);
    let cases = [
        (vec![1], 576, "50: the short order has 1 byte; its model and count take 2"),
        (sound.record()[..6].to_vec(), 576, "50: the short order has 6 bytes; its length for 3 racks is 7"),
        (
            ShortOrder { spare: 1, ..sound.clone() }.record(),
            576,
            "50: the spare bit is set in byte 2 of the short order",
        ),
        (
            ShortOrder { pad: 1, ..sound.clone() }.record(),
            576,
            "50: a pad bit is set in the last byte of the short order, byte 7",
        ),
        (short(6, &[0], &[1]).record(), 576, "51: model 6 is not sold; models are 1 to 5"),
        (short(0, &[0], &[1]).record(), 576, "51: model 0 is not sold; models are 1 to 5"),
        (short(1, &[6], &[1]).record(), 576, "14: rack 1 starts at 6; the floor's positions are 0 to 5"),
        (short(2, &[6, 7], &[11, 11]).record(), 576, "14: racks 1 and 2 both have the goal 11"),
        // 7 edges and 3 racks: 3 + 15 bytes
        (sound.record(), 17, "52: the order buffer has 17 bytes; the order takes 18"),
    ];
    for (record, buffer, expected) in cases {
        let given = Given { short_order: Some(&record), buffer: Some(buffer), ..Given::default() };
        let answer = library::order_expand(&record, &mut vec![0; buffer]);
        assert_eq!(refused(answer, second::models::expand(&record, buffer), &given), expected);
    }
}

#[test]
fn of_floors() {
    let star: Vec<Move> = (1..6).map(|leaf| (0, leaf)).collect();
    let wheel = [star, vec![(1, 2), (1, 5), (2, 3), (3, 4), (4, 5)]].concat();
    let two = [(0, 1), (0, 2), (1, 2), (2, 3), (2, 4), (3, 4)];
    let cases = [
        (
            order(4, &F, &[0, 1, 2], &[1, 2, 0]),
            "20: vacant positions: 1 of 4; at least two have to be vacant, on a ring one",
        ),
        (
            order(3, &ring(3), &[0, 1, 2], &[1, 2, 0]),
            "20: vacant positions: 0 of 3; at least two have to be vacant, on a ring one",
        ),
        (order(2, &[(0, 1)], &[], &[]), "21: the floor has 2 positions; it takes at least 3"),
        // case 5, the path 0-1, 1-2, 2-3
        (order(4, &path(4), &[0], &[3]), "21: without position 1 no way leads from 0 to 2"),
        (order(4, &[(0, 1), (2, 3)], &[0], &[3]), "21: no way leads from 0 to 2"),
        (order(5, &two, &[0], &[3]), "21: without position 2 no way leads from 0 to 3"),
        (
            order(5, &ring(5), &[0, 1, 3], &[1, 0, 3]),
            "24: round the ring the racks stand 1 2 3 at the start, 1 3 2 at the goal",
        ),
        (
            order(6, &wheel, &[0], &[1]),
            "26: position 0 has 5 edges, to 1, 2, 3, 4 and 5; a rack has four sides",
        ),
    ];
    for (order, expected) in cases {
        let record = order.record();
        let given = Given { order: Some(&record), ..Given::default() };
        assert_eq!(refused(library::floor_check(&record), second::floor::check(&record), &given), expected);
    }
}

#[test]
fn of_carries_and_one_vacancy() {
    let apart = order(4, &[(0, 1), (2, 3)], &[0], &[3]).record();
    let given = Given { order: Some(&apart), ..Given::default() };
    let answer = library::dearest_carry(&apart, &mut [0; 576]);
    let expected = second::carry::find(&apart, &mut [0; 576]);
    assert_eq!(refused(answer, expected, &given), "27: no way leads from 0 to 2");
    let cases = [
        (worked(), "29: 2 positions are vacant; the question is of one"),
        (
            order(4, &F, &[0, 1, 2, 3], &[0, 1, 2, 3]),
            "29: no position is vacant; the question is of one vacant position",
        ),
        (order(3, &path(3), &[0, 1], &[0, 1]), "21: without position 1 no way leads from 0 to 2"),
    ];
    for (order, expected) in cases {
        let record = order.record();
        let given = Given { order: Some(&record), ..Given::default() };
        assert_eq!(refused(library::one_vacancy(&record), second::vacancy::check(&record), &given), expected);
    }
}

/// Buffers are too short only by a caller's own doing; the tool lends enough. Case 6, as request (h) has it, is 1,154.
#[test]
fn of_buffers() {
    let order = worked().record();
    let plan = Plan::of_moves(&[(0, 1), (3, 2), (2, 0), (1, 3)]).record();
    let given =
        |buffer| Given { order: Some(&order), plan: Some(&plan), buffer: Some(buffer), ..Given::default() };
    let said = |answer: Answer, buffer| words(answer.expect_err("it is refused"), &given(buffer));
    let buffer = &mut vec![0; 1154];
    assert_eq!(
        said(library::plan_make(&order, buffer), 1154),
        "23: the plan buffer has 1154 bytes; for 4 positions it has to have 1155"
    );
    // three moves of 18 bits: 3 + 7 bytes
    assert_eq!(
        said(library::dearest_carry(&order, &mut buffer[..9]), 9),
        "28: the plan buffer has 9 bytes; for 4 positions it has to have 10"
    );
    assert_eq!(
        said(library::plan_shorten(&order, &plan, &mut buffer[..8]), 8),
        "37: the second buffer has 8 bytes; it has to have 9, as the plan has"
    );
    assert_eq!(
        said(library::plan_convert(&order, &plan, &mut buffer[..11]), 11),
        "38: the buffer has 11 bytes; for edition two it has to have 12"
    );
    assert_eq!(
        said(library::timetable_make(&order, &plan, &mut buffer[..14]), 14),
        "44: the buffer has 14 bytes; for 4 moves it has to have 15"
    );
}

#[test]
fn of_plans() {
    let record = worked().record();
    let one = |moves: &[Move]| Plan::of_moves(moves).record();
    let two = |drives: &[(Move, u8)]| Plan::new(Edition::Two, drives.to_vec()).record();
    let odd = Plan { pad: 1, ..Plan::of_moves(&[(0, 1)]) };
    let cases = [
        (vec![0, 0], "30: the plan has 2 bytes; its count alone takes 3"),
        (
            one(&[(0, 1), (3, 2), (2, 0), (1, 3)])[..8].to_vec(),
            "30: the plan has 8 bytes; its length for 4 moves in edition one is 9",
        ),
        (
            [two(&[((0, 1), 1)]), vec![0]].concat(),
            "30: the plan has 7 bytes; its length for 1 move in edition two is 6",
        ),
        (
            Plan { spare: 2, ..Plan::of_moves(&[]) }.record(),
            "31: the spare bits of the plan are 10, those of no edition",
        ),
        (odd.record(), "31: a pad bit is set in the last byte of the plan, byte 5"),
        (one(&[(0, 1), (0, 3)]), "32 at move 2: no edge joins 0 and 3"),
        (one(&[(0, 20)]), "32 at move 1: there is no position 20; the floor's positions are 0 to 3"),
        // case 7
        (one(&[]), "33: rack 1 stands at 0, its goal is 3"),
        (one(&[(0, 1), (3, 2), (1, 3)]), "33: rack 2 stands at 2, its goal is 0"),
        (one(&[(0, 1), (0, 2)]), "34 at move 2: no rack stands at 0"),
        (one(&[(0, 1), (1, 3)]), "35 at move 2: rack 2 stands at 3"),
        (one(&[(0, 1), (3, 2), (2, 1)]), "35 at move 3: rack 1 stands at 1"),
        (
            two(&[((0, 1), 1), ((3, 2), 2), ((2, 0), 3)]),
            "36 at move 3: rack 2 stands at 2, the plan names rack 3",
        ),
        (two(&[((0, 1), 1), ((3, 2), 1)]), "36 at move 2: rack 2 stands at 3, the plan names rack 1"),
    ];
    for (plan, expected) in cases {
        let given = Given { order: Some(&record), plan: Some(&plan), ..Given::default() };
        let answer = library::plan_check(&record, &plan);
        assert_eq!(refused(answer, second::plan::check(&record, &plan), &given), expected);
    }
}

/// The sentences that README.md shows; that of 42 is in `of_steps`.
#[test]
fn of_the_readme() {
    let four_by_four = compare::floors::grid(4, 4).edges;
    let record = order(16, &four_by_four, &[0, 7], &[0, 3]).record();
    let to_and_fro = [(0, 1), (1, 0), (0, 1), (1, 0), (0, 1), (1, 0), (3, 9)];
    let cases: [(&[Move], &str); 2] = [
        (&to_and_fro, "32 at move 7: no edge joins 3 and 9"),
        (&[], "33: rack 2 stands at 7, its goal is 3"),
    ];
    let readme = concat!(env!("CARGO_MANIFEST_DIR"), "/../../README.md");
    let readme = std::fs::read_to_string(readme).expect("it is there");
    for (moves, expected) in cases {
        let plan = Plan::of_moves(moves).record();
        let given = Given { order: Some(&record), plan: Some(&plan), ..Given::default() };
        let answer = library::plan_check(&record, &plan);
        assert_eq!(refused(answer, second::plan::check(&record, &plan), &given), expected);
        assert!(readme.contains(&format!("    refused {expected}\n")));
    }
}

fn timetable(steps: &[&[Move]]) -> Vec<u8> {
    let step = |moves: &&[Move]| Step { moves: moves.to_vec(), pad: 0 };
    Timetable { steps: steps.iter().map(step).collect(), spare: 0 }.record()
}

fn timetable_words(order: &Order, timetable: &[u8]) -> String {
    let record = order.record();
    let given = Given { order: Some(&record), timetable: Some(timetable), ..Given::default() };
    let answer = library::timetable_check(&record, timetable);
    refused(answer, second::timetable::check(&record, timetable), &given)
}

#[test]
fn of_timetables() {
    let sound = timetable(&[&[(0, 1), (3, 2)], &[(1, 3), (2, 0)]]);
    let padded =
        |pad| Timetable { steps: vec![Step::default(), Step { moves: vec![(0, 1)], pad }], spare: 0 };
    let cases = [
        (vec![0], "40: the timetable has 1 byte; its count alone takes 3"),
        (sound[..10].to_vec(), "40: the timetable has 10 bytes; step 2 of 2 runs past its end"),
        (sound[..7].to_vec(), "40: the timetable has 7 bytes; step 2 of 2 runs past its end"),
        ([sound.clone(), vec![0, 0]].concat(), "40: 2 bytes too many behind 2 steps"),
        ([timetable(&[]), vec![0]].concat(), "40: 1 byte too many behind 0 steps"),
        (Timetable { steps: vec![], spare: 1 }.record(), "41: a spare bit is set in byte 3 of the timetable"),
        (padded(1).record(), "41: a pad bit of step 2 is set"),
        (timetable(&[]), "43: rack 1 stands at 0, its goal is 3"),
        (timetable(&[&[(0, 1), (3, 2)], &[(1, 3)]]), "43: rack 2 stands at 2, its goal is 0"),
    ];
    for (record, expected) in cases {
        assert_eq!(timetable_words(&worked(), &record), expected);
    }
    let given = |step| Given { timetable: Some(&sound), step: Some(step), ..Given::default() };
    for (step, expected) in [
        (0, "45: step 0 was asked for; the timetable has 2 steps"),
        (3, "45: step 3 was asked for; the timetable has 2 steps"),
    ] {
        let answer = library::timetable_step(&sound, step);
        assert_eq!(refused(answer, second::timetable::step(&sound, step), &given(step)), expected);
    }
}

#[test]
fn of_steps() {
    // case 3: F, racks at 0, 1, 2
    let three = order(4, &F, &[0, 1, 2], &[1, 2, 0]);
    let cases: [(&[&[Move]], &str); 9] = [
        (&[&[(0, 1), (1, 2), (2, 0)]], "42 at step 1: the chain 0>1>2>0 has no leader"),
        (&[&[(0, 1), (1, 0)]], "42 at step 1: the chain 0>1>0 has no leader"),
        (&[&[(0, 1)]], "42 at step 1: the chain 0>1 has no leader: rack 2 stays at 1"),
        (&[&[(0, 1), (1, 2)]], "42 at step 1: the chain 0>1>2 has no leader: rack 3 stays at 2"),
        (&[&[], &[(2, 3)], &[(0, 3)]], "42 at step 3: no edge joins 0 and 3"),
        (&[&[(2, 3)], &[(2, 1)]], "42 at step 2: no rack stands at 2"),
        (&[&[(1, 3), (2, 3)]], "42 at step 1: 1>3 and 2>3 both enter 3"),
        (&[&[(2, 3), (1, 2)]], "42 at step 1: 1>2 follows 2>3; moves ascend by the position left"),
        (&[&[(1, 3), (1, 2)]], "42 at step 1: two moves leave 1"),
    ];
    for (steps, expected) in cases {
        assert_eq!(timetable_words(&three, &timetable(steps)), expected);
    }
    assert_eq!(
        timetable_words(&three, &timetable(&[&[(0, 9)]])),
        "42 at step 1: there is no position 9; the floor's positions are 0 to 3"
    );
    // request (i): trains of at most eight. A chain of the kind, and nine racks in a row
    let nine = order(10, &path(10), &[0, 1, 2, 3, 4, 5, 6, 7, 8], &[1, 2, 3, 4, 5, 6, 7, 8, 9]);
    assert_eq!(
        timetable_words(&nine, &timetable(&[&path(10)])),
        "42 at step 1: the train 0>1>2>3>4>5>6>7>8>9 has 9 moves; at most 8 may be in one"
    );
    let ring_edges = [(0, 1), (1, 2), (2, 3), (3, 4), (4, 5), (4, 6), (5, 6)];
    let behind = order(7, &ring_edges, &[3, 4, 5, 6], &[3, 4, 5, 6]);
    assert_eq!(
        timetable_words(&behind, &timetable(&[&[], &[], &[], &[], &[(4, 5), (5, 6), (6, 4)]])),
        "42 at step 5: the chain 4>5>6>4 has no leader"
    );
    let into = timetable(&[&[(3, 4), (4, 5), (5, 6), (6, 5)]]);
    assert_eq!(timetable_words(&behind, &into), "42 at step 1: 4>5 and 6>5 both enter 5");
}

#[test]
fn of_seasons() {
    let pair = [worked().record(), timetable(&[&[(0, 1), (3, 2)], &[(1, 3), (2, 0)]])].concat();
    let small = [order(1, &[], &[], &[]).record(), timetable(&[])].concat();
    let cases = [
        (
            pair[..13].to_vec(),
            "46 at pair 1: the season's 13 bytes end inside its order; the pair begins at byte 1",
        ),
        (
            [&pair, &pair[..20]].concat(),
            "46 at pair 2: the season's 45 bytes end inside its timetable; the pair begins at byte 26",
        ),
        (
            [&pair[..], &[8]].concat(),
            "46 at pair 2: the season's 26 bytes end inside its order; the pair begins at byte 26",
        ),
        (small.repeat(65_536), "47 at pair 65535: 6 bytes too many; a season has no more pairs"),
        (
            [small.repeat(65_535), vec![0]].concat(),
            "47 at pair 65535: 1 byte too many; a season has no more pairs",
        ),
    ];
    for (season, expected) in cases {
        let given = Given { season: Some(&season), ..Given::default() };
        let answer = library::season_report(&season);
        assert_eq!(refused(answer, second::season::report(&season), &given), expected);
    }
}

/// The numbers that the header's enum gives, read from its text.
fn header_numbers() -> Vec<u8> {
    let header = concat!(env!("CARGO_MANIFEST_DIR"), "/../../include/wichteab.h");
    let header = std::fs::read_to_string(header).expect("it is there");
    let (_, from) = header.split_once("WICHTEAB_ACCEPTED = 0,").expect("the enum");
    let (inside, _) = from.split_once("};").expect("its end");
    let number = |line: &str| {
        let (name, rest) = line.trim().split_once(" = ")?;
        let digits: String = rest.chars().take_while(char::is_ascii_digit).collect();
        name.starts_with("WICHTEAB_").then(|| digits.parse().expect(line))
    };
    inside.lines().filter_map(number).collect()
}

/// Numbers that the tool cannot meet, the live floor's and 22, and any number without its records: each has words of
/// its own.
#[test]
fn every_number_has_words() {
    let numbers = header_numbers();
    assert_eq!(numbers.len(), 37, "{numbers:?}");
    let said: Vec<String> =
        numbers.iter().map(|&number| words(Refusal { number, place: 0 }, &Given::default())).collect();
    for (number, sentence) in numbers.iter().zip(&said) {
        assert!(sentence.starts_with(&number.to_string()), "{sentence}");
        assert!(!sentence.contains("does not know"), "{sentence}");
        let meaning = sentence.split_once(": ").expect("words").1;
        assert!(said.iter().filter(|other| other.ends_with(meaning)).count() == 1, "{sentence}");
    }
    let cases = [
        (22, "22: the floor is a ring; this number is no longer given"),
        (60, "60: the role has no right to this call, or the live floor is not open"),
        (61, "61: no step is left to run, or the next one is not legal where the racks now stand"),
        (62, "62: there is no step to take back, or the last one cannot be taken back where the racks now stand"),
        (99, "99: refused, for a reason that this tool does not know"),
    ];
    for (number, expected) in cases {
        assert_eq!(words(Refusal { number, place: 0 }, &Given::default()), expected);
    }
}

/// The sentence that a number has without its records. Where there are records, they have to show more.
fn general(refusal: Refusal) -> String {
    words(refusal, &Given::default())
}

/// Whatever is wrong with a record, the words are found in it.
#[test]
fn random_damage_has_words() {
    let mut random = Random::new(4);
    for _ in 0..20_000 {
        let (_, case) = plans::random_case(&mut random);
        shows_more(
            library::plan_check(&case.order, &case.record),
            Given { order: Some(&case.order), plan: Some(&case.record), ..Given::default() },
        );
        let (_, case) = timetables::random_case(&mut random);
        shows_more(
            library::timetable_check(&case.order, &case.record),
            Given { order: Some(&case.order), timetable: Some(&case.record), ..Given::default() },
        );
        let order = orders::random_order(&mut random);
        let record = orders::damaged_often(&mut random, &order);
        shows_more(library::order_check(&record), Given { order: Some(&record), ..Given::default() });
        let record = order.record();
        let given = Given { order: Some(&record), ..Given::default() };
        shows_more(library::floor_check(&record), given);
        shows_more(library::one_vacancy(&record), given);
        shows_more(wichteab_tool::calls::carried(&record), given);
    }
    for _ in 0..2_000 {
        let pairs = random.between(1, 4);
        let (season, _) = seasons::sound(&mut random, pairs);
        let cut = &season[..random.below(season.len())];
        shows_more(library::season_report(cut), Given { season: Some(cut), ..Given::default() });
    }
}

fn shows_more<T>(answer: Answer<T>, given: Given) {
    if let Err(refusal) = answer {
        assert_ne!(words(refusal, &given), general(refusal));
    }
}
