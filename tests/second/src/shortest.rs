//! Request (g), "No shorter timetable for this plan": the routes and visits of a plan, and the fewest steps
//! of a legal timetable that keeps them, by a search of all of them. For small floors and short plans. By request
//! (i) "the shortest-timetable result ranges over timetables that respect the cap", which is whatever is asked for.

use crate::motion::Arrangement;
use crate::order::Order;
use crate::plan::Plan;
use crate::record::{pack, packed_length, pair, positions};
use crate::timetable::step_length;
use std::collections::BTreeSet;

/// What a timetable is to keep: "each rack keeps its route, and each position its sequence of visiting
/// racks".
#[derive(Clone, PartialEq, Eq, Debug)]
pub struct Kept {
    /// The positions of each rack in order, its start first, rack 1's at index 0. A rack that waits
    /// repeats none.
    pub routes: Vec<Vec<usize>>,
    /// The racks that visit each position in order, the one that stands there at the start first. A rack
    /// that comes again is there again.
    pub visits: Vec<Vec<u8>>,
}

impl Kept {
    /// Before any move.
    fn starting(order: &Order) -> Kept {
        let mut kept = Kept { routes: vec![Vec::new(); order.m], visits: vec![Vec::new(); order.floor.n] };
        for (rack, &start) in (1..).zip(order.starts()) {
            kept.comes(rack, usize::from(start));
        }
        kept
    }

    fn comes(&mut self, rack: u8, position: usize) {
        self.routes[usize::from(rack) - 1].push(position);
        self.visits[position].push(rack);
    }

    /// The routes and visits of an accepted plan.
    pub fn by_plan(order: &Order, plan: Plan<'_>) -> Kept {
        let mut now = Arrangement::starting(order);
        let mut kept = Kept::starting(order);
        for (left, entered) in plan.pairs().map(positions) {
            kept.comes(now.rack_at(left), entered);
            now.make_move(left, entered);
        }
        kept
    }

    /// The routes and visits of a timetable that is accepted with this cap.
    pub fn by_timetable(order: &Order, timetable: &[u8], cap: usize) -> Kept {
        let mut now = Arrangement::starting(order);
        let mut kept = Kept::starting(order);
        let mut rest = &timetable[3..];
        while !rest.is_empty() {
            let (packed, after) = rest.split_at(step_length(rest[0]));
            let c = usize::from(packed[0]);
            for index in 0..c {
                let (left, entered) = positions(pair(&packed[1..], index));
                kept.comes(now.rack_at(left), entered);
            }
            let step = now.legal_step(&order.floor, &packed[1..], c, cap).expect("an accepted timetable");
            now.make_step(&step);
            rest = after;
        }
        kept
    }

    /// The fewest steps of a legal timetable that keeps routes and visits.
    pub fn fewest_steps(&self, order: &Order, cap: usize) -> Option<u32> {
        self.search(order, true, cap)
    }

    /// The fewest steps of a legal timetable that keeps the routes, whatever the visits.
    pub fn fewest_steps_of_routes(&self, order: &Order, cap: usize) -> Option<u32> {
        self.search(order, false, cap)
    }

    /// Step after step, everywhere that the racks can have come on their routes. "Waiting steps count": a
    /// step without moves leads nowhere new, so a timetable with one is never among the shortest.
    fn search(&self, order: &Order, keeps_visits: bool, cap: usize) -> Option<u32> {
        let end: Progress = self.routes.iter().map(|route| route.len() - 1).collect();
        let mut reached = BTreeSet::from([vec![0; order.m]]);
        let mut last = reached.clone();
        for steps in 0.. {
            if last.contains(&end) {
                return Some(steps);
            }
            let next = last.iter().flat_map(|progress| self.steps_from(order, progress, keeps_visits, cap));
            last = next.filter(|progress| !reached.contains(progress)).collect();
            if last.is_empty() {
                return None;
            }
            reached.extend(last.iter().cloned());
        }
        None
    }

    /// Where one legal step leads, whichever racks move on in it.
    fn steps_from(
        &self,
        order: &Order,
        progress: &Progress,
        keeps_visits: bool,
        cap: usize,
    ) -> Vec<Progress> {
        let places: Vec<u8> = self.routes.iter().zip(progress).map(|(route, &at)| route[at] as u8).collect();
        let now = Arrangement::of(&places);
        let goes_on = |&rack: &usize| progress[rack] + 1 < self.routes[rack].len();
        let in_turn = |&rack: &usize| !keeps_visits || self.is_next_visitor(progress, rack);
        let may_move: Vec<usize> = (0..order.m).filter(goes_on).filter(in_turn).collect();
        let mut reached = Vec::new();
        for movers in 1u32..1 << may_move.len() {
            let chosen = (0..may_move.len()).filter(|index| movers >> index & 1 == 1);
            let racks: Vec<usize> = chosen.map(|index| may_move[index]).collect();
            if is_legal(order, &now, self.moves_on(progress, &racks), cap) {
                let mut after = progress.clone();
                racks.iter().for_each(|&rack| after[rack] += 1);
                reached.push(after);
            }
        }
        reached
    }

    /// Whether the rack of this index is the next to visit the next position of its route.
    fn is_next_visitor(&self, progress: &Progress, rack: usize) -> bool {
        let entered = self.routes[rack][progress[rack] + 1];
        let come = self.routes.iter().zip(progress).flat_map(|(route, &at)| &route[..=at]);
        let visits = come.filter(|&&position| position == entered).count();
        self.visits[entered].get(visits) == Some(&(rack as u8 + 1))
    }

    /// The next moves of the racks of these indexes, ascending by position left.
    fn moves_on(&self, progress: &Progress, racks: &[usize]) -> Vec<u16> {
        let next = |&rack: &usize| {
            let (left, entered) = (self.routes[rack][progress[rack]], self.routes[rack][progress[rack] + 1]);
            (left << 6 | entered) as u16
        };
        let mut moves: Vec<u16> = racks.iter().map(next).collect();
        moves.sort_unstable();
        moves
    }
}

/// Whether these moves are a legal step.
fn is_legal(order: &Order, now: &Arrangement, moves: Vec<u16>, cap: usize) -> bool {
    let mut packed = vec![0; packed_length(moves.len())];
    let count = pack(moves, &mut packed);
    now.legal_step(&order.floor, &packed, count, cap).is_some()
}

/// How many moves of its route each rack has made.
type Progress = Vec<usize>;
