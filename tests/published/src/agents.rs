//! "Vacancies beyond two are filled with stand-in racks whose moves are dropped."

use second::breakdown::{members, set_of};
use second::floor::all_positions;
use second::order::Order;

/// The agents of an order: rack r is agent r, and stand-ins follow until two positions are vacant.
pub struct Agents {
    pub racks: usize,
    /// The start of each agent, agent 1 first.
    pub starts: Vec<u8>,
    /// The goal of each agent, agent 1 first.
    pub goals: Vec<u8>,
}

/// The agents of an order that has two vacancies or more.
pub fn agents(order: &Order) -> Agents {
    let (mut starts, mut goals) = (order.starts().to_vec(), order.goals().to_vec());
    for (start, goal) in stand_ins(order).take(order.floor.n - order.m - 2) {
        starts.push(start as u8);
        goals.push(goal as u8);
    }
    Agents { racks: order.m, starts, goals }
}

/// A start and a goal for each vacancy: those that need not move first, then the others, lowest first.
fn stand_ins(order: &Order) -> impl Iterator<Item = (usize, usize)> {
    let all = all_positions(order.floor.n);
    let (starts, goals) = (all & !set_of(order.starts()), all & !set_of(order.goals()));
    let both = starts & goals;
    let stay = members(both).map(|position| (position, position));
    stay.chain(members(starts & !both).zip(members(goals & !both)))
}
