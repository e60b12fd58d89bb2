//! What the words say of moves, steps and floors is true: the second implementation replays what came before the place
//! and each sentence is held to the arrangement that it finds there; floors are searched by it a second time.

use compare::random::Random;
use compare::{orders, plans, timetables};
use second::breakdown::shortest_path;
use second::floor::{all_positions, round};
use second::motion::{Arrangement, CAP};
use second::order::{self, Order};
use second::record::{pair, positions};
use std::collections::BTreeMap;
use wichteab_tool::library;
use wichteab_tool::words::{words, Given};

/// Where a rack stands.
fn position_of(now: &Arrangement, rack: u32) -> usize {
    now.racks().iter().position(|&other| u32::from(other) == rack).expect("it is on the floor")
}

fn astray(number: u8, order: &Order, now: &Arrangement, rack: u32) -> String {
    let goal = order.goals()[rack as usize - 1];
    format!("{number}: rack {rack} stands at {}, its goal is {goal}", position_of(now, rack))
}

/// The whole sentence of a plan's refusal with 33, 34, 35 or 36; in 36 without the rack that the plan names.
fn plan_sentence(number: u8, place: u32, order: &Order, plan: &[u8]) -> String {
    let plan = second::plan::read(plan).expect("30 and 31 come first");
    let mut now = Arrangement::starting(order);
    let made = if number == 33 { plan.k } else { place as usize - 1 };
    for (left, entered) in plan.pairs().take(made).map(positions) {
        now.make_move(left, entered);
    }
    if number == 33 {
        return astray(33, order, &now, place);
    }
    let (left, entered) = positions(plan.pair(made));
    match number {
        34 => format!("34 at move {place}: no rack stands at {left}"),
        35 => format!("35 at move {place}: rack {} stands at {entered}", now.rack_at(entered)),
        _ => format!("36 at move {place}: rack {} stands at {left}, the plan names rack ", now.rack_at(left)),
    }
}

#[test]
fn of_random_plans() {
    let mut random = Random::new(21);
    let mut met: BTreeMap<u8, usize> = BTreeMap::new();
    for _ in 0..30_000 {
        let (_, case) = plans::random_case(&mut random);
        let Err(refusal) = library::plan_check(&case.order, &case.record) else { continue };
        if !(33..=36).contains(&refusal.number) {
            continue;
        }
        let given = Given { order: Some(&case.order), plan: Some(&case.record), ..Given::default() };
        let said = words(refusal, &given);
        let order = order::read(&case.order).expect("10 to 14 come first");
        let expected = plan_sentence(refusal.number, refusal.place, &order, &case.record);
        match refusal.number {
            36 => assert!(said.starts_with(&expected), "{said}"),
            _ => assert_eq!(said, expected),
        }
        *met.entry(refusal.number).or_default() += 1;
    }
    assert!(met.len() == 4 && met.values().all(|&often| often > 100), "{met:?}");
}

type Move = (usize, usize);

/// The moves of a step, and the arrangement before it; after the last step no moves and the end.
fn before_step(order: &Order, timetable: &[u8], number: u32) -> (Vec<Move>, Arrangement) {
    let mut now = Arrangement::starting(order);
    for earlier in 1.. {
        let Ok(part) = second::timetable::step(timetable, earlier) else { break };
        let packed = &timetable[part.offset + 1..part.offset + part.length];
        let count = usize::from(timetable[part.offset]);
        if earlier == u64::from(number) {
            return ((0..count).map(|index| positions(pair(packed, index))).collect(), now);
        }
        let step = now.legal_step(&order.floor, packed, count, CAP).expect("it comes before the place");
        now.make_step(&step);
    }
    (Vec::new(), now)
}

/// The numbers in a sentence.
fn numbers(sentence: &str) -> Vec<usize> {
    sentence.split(|one: char| !one.is_ascii_digit()).filter_map(|digits| digits.parse().ok()).collect()
}

/// The kind of sentence, if it is true of the step and of the racks before it.
fn true_of_step(said: &str, order: &Order, step: &[Move], now: &Arrangement) -> Option<&'static str> {
    let n = numbers(said);
    let made = |left, entered| step.contains(&(left, entered));
    let leaves = |position| step.iter().filter(|one| one.0 == position).count();
    let (kind, holds) = if said.starts_with("no edge joins") {
        ("edge", made(n[0], n[1]) && !order.floor.joined(n[0], n[1]))
    } else if said.starts_with("there is no position") {
        ("floor", step.iter().any(|one| one.0 == n[0] || one.1 == n[0]) && n[0] >= order.floor.n)
    } else if said.starts_with("no rack stands at") {
        ("rack", leaves(n[0]) > 0 && now.is_vacant(n[0]))
    } else if said.starts_with("two moves leave") {
        ("twice", leaves(n[0]) > 1)
    } else if said.ends_with("moves ascend by the position left") {
        ("ascent", step.windows(2).any(|two| two == [(n[2], n[3]), (n[0], n[1])]) && n[2] > n[0])
    } else if said.contains("both enter") {
        ("entered", made(n[0], n[1]) && made(n[2], n[3]) && n[1] == n[3] && n[0] != n[2])
    } else {
        return true_of_chain(said, step, now);
    };
    holds.then_some(kind)
}

/// The same of the sentences on chains and trains.
fn true_of_chain(said: &str, step: &[Move], now: &Arrangement) -> Option<&'static str> {
    let chain = numbers(said.split(" has ").next()?);
    let last = *chain.last()?;
    let follows = chain.windows(2).all(|two| step.contains(&(two[0], two[1])));
    let left_again = step.iter().any(|one| one.0 == last);
    let (kind, holds) = if said.starts_with("the train ") {
        ("train", now.is_vacant(last) && chain.len() - 1 > CAP)
    } else if let Some((_, stays)) = said.split_once(" has no leader: ") {
        let rack = numbers(stays)[0];
        ("stays", usize::from(now.rack_at(last)) == rack && rack > 0 && !left_again)
    } else {
        ("round", said.ends_with(" has no leader") && left_again && chain[..chain.len() - 1].contains(&last))
    };
    (follows && holds).then_some(kind)
}

#[test]
fn of_random_timetables() {
    let mut random = Random::new(22);
    let mut met: BTreeMap<&str, usize> = BTreeMap::new();
    for _ in 0..30_000 {
        let (_, case) = timetables::random_case(&mut random);
        let Err(refusal) = library::timetable_check(&case.order, &case.record) else { continue };
        let given = Given { order: Some(&case.order), timetable: Some(&case.record), ..Given::default() };
        let said = words(refusal, &given);
        let Ok(order) = order::read(&case.order) else { continue };
        if refusal.number == 43 {
            let (_, end) = before_step(&order, &case.record, u32::MAX);
            assert_eq!(said, astray(43, &order, &end, refusal.place));
        }
        if refusal.number == 42 {
            let (step, now) = before_step(&order, &case.record, refusal.place);
            let sentence = said.strip_prefix(&format!("42 at step {}: ", refusal.place)).expect(&said);
            let kind = true_of_step(sentence, &order, &step, &now);
            *met.entry(kind.expect(&said)).or_default() += 1;
        }
    }
    println!("{met:?}");
    assert!(met.len() == 9 && met.values().all(|&often| often > 20), "{met:?}");
}

/// Whether a way leads from one position to the other without the one that is taken away, if one is.
fn joined(order: &Order, from: usize, to: usize, taken: Option<usize>) -> bool {
    let allowed = all_positions(order.floor.n) & !taken.map_or(0, |position| 1 << position);
    shortest_path(&order.floor, from, 1 << to, allowed).is_some()
}

/// The racks round a ring from rack 1 on, in words.
fn read_round(order: &Order, places: &[u8]) -> String {
    let rack_at = |&position: &usize| places.iter().position(|&place| usize::from(place) == position);
    let mut racks: Vec<usize> =
        round(&order.floor).iter().filter_map(rack_at).map(|index| index + 1).collect();
    let first = racks.iter().position(|&rack| rack == 1).expect("it is there");
    racks.rotate_left(first);
    racks.iter().map(usize::to_string).collect::<Vec<_>>().join(" ")
}

/// Whether the sentence of a refused floor is true of it.
fn true_of_floor(number: u8, said: &str, order: &Order) -> bool {
    let n = numbers(said);
    match number {
        20 => n == [order.floor.n - order.m, order.floor.n] && n[0] < 2,
        21 if said.starts_with("the floor has") => n == [order.floor.n, 3],
        21 if said.starts_with("without position") => {
            !joined(order, n[1], n[2], Some(n[0])) && joined(order, n[1], n[2], None)
        }
        21 | 27 => !joined(order, n[0], n[1], None),
        24 => {
            let (starts, goals) = (read_round(order, order.starts()), read_round(order, order.goals()));
            said == format!("round the ring the racks stand {starts} at the start, {goals} at the goal")
        }
        26 => {
            let neighbours = order.floor.neighbours[n[0]];
            n[1] == n.len() - 2 && n[1] > 4 && n[2..].iter().fold(0, |set, &one| set | 1 << one) == neighbours
        }
        _ if n.is_empty() => said.starts_with("no position is vacant") && order.m == order.floor.n,
        _ => n == [order.floor.n - order.m],
    }
}

#[test]
fn of_random_floors() {
    let mut random = Random::new(23);
    let mut met: BTreeMap<u8, usize> = BTreeMap::new();
    for _ in 0..20_000 {
        let record = orders::random_order(&mut random).record();
        let order = order::read(&record).expect("it is well formed");
        let given = Given { order: Some(&record), ..Given::default() };
        let carried = wichteab_tool::calls::carried(&record).map(|_| ());
        let judged = library::one_vacancy(&record).map(|_| ());
        for refusal in [library::floor_check(&record), carried, judged].into_iter().filter_map(Result::err) {
            let said = words(refusal, &given);
            let sentence = said.strip_prefix(&format!("{}: ", refusal.number)).expect(&said);
            assert!(true_of_floor(refusal.number, sentence, &order), "{said}");
            *met.entry(refusal.number).or_default() += 1;
        }
    }
    assert!(met.len() == 6 && met.values().all(|&often| often > 50), "{met:?}");
}
