//! The proved calls on the live floor against the second ones: sequences of calls by all roles, with the pair that the
//! floor was opened with and with others, the pictures compared after each call.

use compare::live::{self, Pair};
use compare::packed;
use compare::proved;
use compare::random::Random;
use compare::tally::Tally;
use second::live::{Call, Picture, Role, CALLS, CLOSED};

const NUMBERS: [u8; 13] = [0, 10, 11, 12, 13, 14, 40, 41, 42, 43, 60, 61, 62];

fn as_second(floor: &proved::Floor) -> Picture {
    Picture { racks: floor.racks, steps: floor.steps, positions: floor.positions }
}

fn as_proved(picture: &Picture) -> proved::Floor {
    proved::Floor { racks: picture.racks, steps: picture.steps, positions: picture.positions }
}

/// Makes the call on both, and compares the answers, the pictures and what a reading shows.
fn compare(tally: &mut Tally, picture: &mut Picture, call: Call, role: u32, pair: &Pair) -> u64 {
    let Pair { order, timetable } = pair;
    let before = *picture;
    let mut floor = as_proved(picture);
    let mut racks = [0xA5; 64];
    let answer = match call {
        Call::Open => proved::floor_open(&mut floor, role, order, timetable),
        Call::Read => proved::floor_read(&floor, role, order, timetable, &mut racks),
        Call::Run => proved::floor_run(&mut floor, role, order, timetable),
        Call::TakeBack => proved::floor_take_back(&mut floor, role, order, timetable),
    };
    let expected = packed::count(second::live::call(picture, call, Role::of(role), order, timetable));
    tally.compare(answer, expected, &[order, timetable, &before.racks, &[role as u8, before.steps as u8]]);
    assert_eq!(as_second(&floor), *picture, "{call:?} by role {role} after {before:?}");
    let shown = if call == Call::Read && answer & 0xFF == 0 { picture.racks } else { [0xA5; 64] };
    assert_eq!(racks, shown, "{call:?} by role {role} on {before:?}");
    answer
}

/// A role's number: mostly one of the three.
fn random_role(random: &mut Random) -> u32 {
    match random.below(24) {
        0 => 0,
        1 => random.number() as u32,
        2..=5 => 1,
        6..=12 => 2,
        _ => 3,
    }
}

fn random_call(random: &mut Random) -> Call {
    match random.below(20) {
        0 => Call::Open,
        1 | 2 => Call::Read,
        3..=12 => Call::Run,
        _ => Call::TakeBack,
    }
}

/// A picture that no call has made.
fn any_picture(random: &mut Random) -> Picture {
    let mut racks = [0; 64];
    random.fill(&mut racks);
    let holes = random.number() | random.number();
    racks.iter_mut().enumerate().for_each(|(position, rack)| {
        if holes >> position & 1 == 1 {
            *rack = 0;
        }
    });
    let steps = [random.below(8) as u32, random.number() as u32, u32::MAX][random.below(3)];
    let positions = [random.below(70) as u32, 64, random.number() as u32][random.below(3)];
    Picture { racks, steps, positions }
}

fn random_length(random: &mut Random) -> usize {
    match random.below(16) {
        0 => 200,
        1 | 2 => random.between(50, 200),
        _ => random.between(1, 30),
    }
}

#[test]
fn sequences_of_calls_by_all_roles_with_the_opening_pair_and_others() {
    let mut random = Random::new(0x5EED_6001);
    let mut tally = Tally::new("live floor, calls");
    for _ in 0..25_000 {
        let pairs = live::pairs(&mut random);
        let mut picture = CLOSED;
        let mut opened = 0;
        let stray = random.pick(&[2, 4, 1000]);
        for index in 0..random_length(&mut random) {
            let call = if index == 0 && !random.one_in(8) { Call::Open } else { random_call(&mut random) };
            let with = match random.one_in(stray) {
                true => random.below(pairs.len()),
                false => opened,
            };
            let role = random_role(&mut random);
            let answer = compare(&mut tally, &mut picture, call, role, &pairs[with]);
            if call == Call::Open && answer & 0xFF == 0 {
                opened = with;
            }
        }
    }
    tally.finish(25_000, &NUMBERS);
}

#[test]
fn pictures_that_no_call_has_made() {
    let mut random = Random::new(0x5EED_6002);
    let mut tally = Tally::new("live floor, any picture");
    for _ in 0..30_000 {
        let pairs = live::pairs(&mut random);
        for _ in 0..6 {
            let mut picture = any_picture(&mut random);
            let (call, role) = (random.pick(&CALLS), random_role(&mut random));
            let with = random.below(pairs.len());
            compare(&mut tally, &mut picture, call, role, &pairs[with]);
        }
    }
    tally.finish(150_000, &NUMBERS);
}

/// "After any sequence of calls since the latest opening, all lending the opening pair, … it is the one that replaying
/// the steps run and not taken back gives, from the start." The second halves of 61 and 62 are not met.
#[test]
fn to_the_last_step_and_back_to_the_first() {
    let mut random = Random::new(0x5EED_6003);
    let mut tally = Tally::new("live floor, there and back");
    for _ in 0..5_000 {
        let opening = &live::pairs(&mut random)[0];
        let mut picture = CLOSED;
        compare(&mut tally, &mut picture, Call::Open, 1, opening);
        let mut pictures = vec![picture];
        while compare(&mut tally, &mut picture, Call::Run, 2, opening) & 0xFF == 0 {
            pictures.push(picture);
        }
        let steps = second::timetable::read(&opening.timetable).expect("a sound timetable").steps;
        assert_eq!(pictures.len(), steps as usize + 1);
        for before in pictures.iter().rev() {
            assert_eq!(picture, *before);
            let answer = compare(&mut tally, &mut picture, Call::TakeBack, 3, opening);
            assert_eq!(answer & 0xFF, if before.steps == 0 { 62 } else { 0 });
        }
    }
    tally.finish(40_000, &[0, 61, 62]);
}

/// 60 comes before the checker's numbers, and those before 61 and 62.
#[test]
fn a_viewer_changes_nothing_and_an_operator_takes_nothing_back() {
    let mut random = Random::new(0x5EED_6004);
    let mut tally = Tally::new("live floor, without the right");
    for _ in 0..5_000 {
        let pairs = live::pairs(&mut random);
        let mut picture = CLOSED;
        compare(&mut tally, &mut picture, Call::Open, 2, &pairs[0]);
        compare(&mut tally, &mut picture, Call::Run, 3, &pairs[0]);
        let open = picture;
        for pair in &pairs {
            for (call, role) in [(Call::Run, 1), (Call::TakeBack, 1), (Call::TakeBack, 2), (Call::Open, 0)] {
                assert_eq!(compare(&mut tally, &mut picture, call, role, pair), 60);
            }
            compare(&mut tally, &mut picture, Call::Read, 1, pair);
            assert_eq!(picture, open);
        }
    }
    tally.close(300_000);
}
