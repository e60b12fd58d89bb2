//! Moves that are not legal at their turn, told apart: 32, 34 and 35, each at the first, a middle and the last move
//! of a plan; and in edition two 36, alone, at the same move as another number, and at an earlier or a later one. What
//! the plan checker has to answer is certain from how a plan was made; the timetable maker, the shortener and the
//! converter have to pass it up, whatever their buffer's length. Of the plans of each kind every other one misses a
//! goal too: 33 comes last.

use compare::plans::{self, Bad, Damage, Place, Written, ILLEGAL, PLACES};
use compare::random::Random;
use compare::readers::all_refuse;
use compare::tally::Tally;

/// Cases of each kind at each place.
const CASES: u64 = 2_000;

/// At least so often each of the numbers has to be met.
const LEAST_EACH: u64 = 5_000;

/// A bad move, and a later one, if there is one.
type Kind = (Bad, Option<Bad>);

/// Compares on as many plans as are asked for of each kind at each place.
fn at_each_place(tally: &mut Tally, random: &mut Random, kinds: &[Kind]) {
    for &kind in kinds {
        for place in PLACES {
            let met = met_at(tally, random, place, kind);
            println!("  {} at {place:?}: {met}", shown(kind));
            assert_eq!(met, CASES, "{} at {place:?}", shown(kind));
        }
    }
}

fn shown((first, later): Kind) -> String {
    let one = |Bad { reason, written }: Bad| match reason {
        None => format!("legal, rack {written:?}"),
        Some(reason) => format!("{reason:?}, rack {written:?}"),
    };
    match later {
        None => one(first),
        Some(later) => format!("{}, later {}", one(first), one(later)),
    }
}

/// So many plans of the kind were found and compared: all that are asked for, unless they are too seldom.
fn met_at(tally: &mut Tally, random: &mut Random, place: Place, kind: Kind) -> u64 {
    let mut met = 0;
    for _ in 0..100 * CASES {
        let sound = plans::random_sound(random);
        if let Some(case) = plans::with_bad_moves(random, &sound, place, kind, met % 2 == 1) {
            all_refuse(tally, &case.order, &case.record, case.answer.expect("it is certain"));
            met += 1;
        }
        if met == CASES {
            break;
        }
    }
    met
}

fn illegal(reason: Damage, written: Written) -> Bad {
    Bad { reason: Some(reason), written }
}

/// A legal move with a rack written that is not the one there.
fn misnamed(written: Written) -> Bad {
    Bad { reason: None, written }
}

/// Whether a rack can stand at the position left, so that one can be right.
fn leaves_a_rack(reason: Damage) -> bool {
    !matches!(reason, Damage::NotJoinedFromVacant | Damage::FromVacant | Damage::FromVacantIntoStanding)
}

#[test]
fn each_illegal_move_at_the_first_a_middle_and_the_last_move() {
    let mut tally = Tally::new("plan_check, one illegal move");
    let kinds = ILLEGAL.map(|(reason, _)| (illegal(reason, Written::Unwritten), None));
    at_each_place(&mut tally, &mut Random::new(0x5EED_2003), &kinds);
    tally.finish_each(7 * 3 * CASES, LEAST_EACH, &[32, 34, 35]);
}

#[test]
fn the_first_of_two_illegal_moves_decides() {
    let mut tally = Tally::new("plan_check, two illegal moves");
    let kinds = [
        (Damage::IntoStanding, Damage::NotJoined),
        (Damage::IntoStanding, Damage::OutOfRange),
        (Damage::IntoStanding, Damage::FromVacant),
        (Damage::FromVacantIntoStanding, Damage::ToItself),
        (Damage::FromVacant, Damage::IntoStanding),
        (Damage::NotJoined, Damage::IntoStanding),
    ]
    .map(|(first, later)| (illegal(first, Written::Unwritten), Some(illegal(later, Written::Unwritten))));
    at_each_place(&mut tally, &mut Random::new(0x5EED_2004), &kinds);
    tally.finish_each(6 * 3 * CASES, LEAST_EACH, &[32, 34, 35]);
}

/// "36 … after 35 for the same move", and so after 32 and 34.
#[test]
fn a_wrong_rack_with_a_legal_move_and_with_each_illegal_one() {
    let mut tally = Tally::new("plan_check, one bad move in edition two");
    let mut kinds = vec![(misnamed(Written::Wrong), None), (misnamed(Written::AboveM), None)];
    for (reason, _) in ILLEGAL {
        for written in [Written::Right, Written::Wrong, Written::AboveM] {
            if written != Written::Right || leaves_a_rack(reason) {
                kinds.push((illegal(reason, written), None));
            }
        }
    }
    at_each_place(&mut tally, &mut Random::new(0x5EED_2005), &kinds);
    tally.finish_each(20 * 3 * CASES, LEAST_EACH, &[32, 34, 35, 36]);
}

#[test]
fn a_wrong_rack_before_and_behind_another_bad_move() {
    let mut tally = Tally::new("plan_check, two bad moves in edition two");
    let (wrong, above) = (misnamed(Written::Wrong), misnamed(Written::AboveM));
    let kinds = [
        (wrong, illegal(Damage::NotJoined, Written::Right)),
        (wrong, illegal(Damage::OutOfRange, Written::AboveM)),
        (above, illegal(Damage::FromVacant, Written::Wrong)),
        (wrong, illegal(Damage::IntoStanding, Written::Right)),
        (above, wrong),
        (illegal(Damage::NotJoined, Written::Right), wrong),
        (illegal(Damage::ToItself, Written::Wrong), above),
        (illegal(Damage::FromVacant, Written::Wrong), wrong),
        (illegal(Damage::FromVacantIntoStanding, Written::AboveM), wrong),
        (illegal(Damage::IntoStanding, Written::Right), above),
        (illegal(Damage::IntoStanding, Written::Wrong), wrong),
    ]
    .map(|(first, later)| (first, Some(later)));
    at_each_place(&mut tally, &mut Random::new(0x5EED_2006), &kinds);
    tally.finish_each(11 * 3 * CASES, LEAST_EACH, &[32, 34, 35, 36]);
}
