//! What the page has to show, by the second implementation's replay of the records.

use crate::cases::Case;
use second::motion::{Arrangement, CAP};
use second::timetable::{step_length, Counts};

/// The floor after some steps.
#[derive(Clone, Debug, PartialEq, Eq)]
pub struct Shown {
    /// The position of each rack, rack 1 first.
    pub places: Vec<usize>,
    pub moves_made: usize,
    pub racks_home: usize,
    /// The last step's moves: rack, position left, position entered.
    pub moves: Vec<(usize, usize, usize)>,
    /// The last step's trains, each from its last rack's old position to its leader's new one, ascending.
    pub trains: Vec<Vec<usize>>,
}

/// The floor at the start and after each step. Each step is judged before it is made.
pub fn replay(case: &Case) -> Vec<Shown> {
    let order = second::order::read(&case.order_record).expect("the order is accepted");
    let record = &case.timetable_record;
    let Counts { steps, .. } = second::timetable::read(record).expect("the timetable is accepted");
    let mut now = Arrangement::starting(&order);
    let mut shown = vec![after(case, &now, 0, Vec::new())];
    let mut rest = &record[3..];
    for _ in 0..steps {
        let (packed, behind) = rest.split_at(step_length(rest[0]));
        let before = now.clone();
        let step =
            now.legal_step(&order.floor, &packed[1..], usize::from(packed[0]), CAP).expect("it is legal");
        now.make_step(&step);
        let made = shown[shown.len() - 1].moves_made + usize::from(packed[0]);
        shown.push(after(case, &now, made, changes(&before, &now)));
        rest = behind;
    }
    shown
}

fn place_of(now: &Arrangement, rack: usize) -> Option<usize> {
    now.racks().iter().position(|&at| usize::from(at) == rack)
}

/// The racks that stand elsewhere, ascending by the position left.
fn changes(before: &Arrangement, now: &Arrangement) -> Vec<(usize, usize, usize)> {
    let racks = before.racks().into_iter().enumerate().filter(|&(_, rack)| rack > 0);
    let moved = racks.filter_map(|(left, rack)| {
        let entered = place_of(now, usize::from(rack))?;
        (entered != left).then_some((usize::from(rack), left, entered))
    });
    moved.collect()
}

fn after(case: &Case, now: &Arrangement, moves_made: usize, moves: Vec<(usize, usize, usize)>) -> Shown {
    let racks = 1..=case.order.starts.len();
    let places: Vec<usize> =
        racks.map(|rack| place_of(now, rack).expect("every rack is somewhere")).collect();
    let racks_home = places.iter().zip(&case.order.goals).filter(|(place, goal)| place == goal).count();
    let trains = trains(&moves);
    Shown { places, moves_made, racks_home, moves, trains }
}

/// The chains of the moves: from each position that is left and not entered, as far as there is a move on.
fn trains(moves: &[(usize, usize, usize)]) -> Vec<Vec<usize>> {
    let on = |from: usize| moves.iter().find(|&&(_, left, _)| left == from).map(|&(_, _, entered)| entered);
    let lasts = moves.iter().filter(|&&(_, left, _)| moves.iter().all(|&(_, _, entered)| entered != left));
    lasts.map(|&(_, left, _)| std::iter::successors(Some(left), |&at| on(at)).collect()).collect()
}
