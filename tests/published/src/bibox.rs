//! Algorithm 2, "The BIBOX algorithm". Numbers in comments are lines of its pseudo-code.

use crate::agents::agents;
use crate::goal::{finish_solution, transform_goal, ShiftedGoal};
use crate::operation::{index_in, Choice, Move, World};
use second::breakdown::{find, set_of, shortest_path, Breakdown};
use second::floor::all_positions;
use second::order::{Floor, Order};

/// BIBOX-Solve: a plan for an order with two vacancies on a bi-connected floor that is no ring, whatever the number of
/// neighbours to a position; none for another.
pub fn plan(order: &Order, choice: Choice) -> Option<Vec<Move>> {
    if order.m + 2 > order.floor.n {
        return None;
    }
    let Breakdown { mut ring, handles } = find(&order.floor)?;
    let agents = agents(order);
    let goal = transform_goal(&order.floor, &agents, &mut ring, choice);
    let mut world = World::new(&order.floor, &agents, choice);
    let mut unsolved = all_positions(order.floor.n);
    for path in handles.iter().rev() {
        let handle = Handle::new(&order.floor, path, unsolved);
        solve_regular_handle(&mut world, &goal, &handle);
        unsolved = handle.before;
    }
    solve_original_cycle(&mut world, &goal, &ring);
    finish_solution(&mut world, &goal);
    Some(world.into_moves())
}

/// A handle u, w₁ to w_h, v, with its cycle.
struct Handle<'a> {
    u: u8,
    inner: &'a [u8],
    v: u8,
    /// "The cycle consists of the sequence vertices on a path connecting v and u in a graph before the
    /// addition of H followed by vertices w₁, w₂, .., w_h."
    cycle: Vec<u8>,
    /// The positions of the base ring and of the handles before.
    before: u64,
}

impl Handle<'_> {
    /// The handle, with the positions of base ring and handles up to it.
    fn new<'a>(floor: &Floor, path: &'a [u8], unsolved: u64) -> Handle<'a> {
        let [u, inner @ .., v] = path else { panic!("a handle has two ends") };
        let before = unsolved & !set_of(inner);
        let back =
            shortest_path(floor, usize::from(*v), 1 << u, before).expect("before a handle all is joined");
        Handle { u: *u, inner, v: *v, cycle: [&back, inner].concat(), before }
    }

    /// The inner positions.
    fn inside(&self) -> u64 {
        set_of(self.inner)
    }

    /// Inner positions and ends.
    fn whole(&self) -> u64 {
        self.inside() | 1 << self.u | 1 << self.v
    }
}

/// Solve-Regular-Handle: the agents whose goals are inside the handle are pushed in like a stack, the one
/// for the far end first.
fn solve_regular_handle(world: &mut World, goal: &ShiftedGoal, handle: &Handle) {
    move_vacancies_out(world, handle); // 2 to 6
    for &position in handle.inner.iter().rev() {
        let agent = goal.agent_at[usize::from(position)];
        world.lock(handle.inside()); // 8
        if handle.inner.contains(&world.place_of(agent)) {
            take_out(world, handle, agent); // 16 to 32
        }
        push_in(world, handle, agent); // 10 to 14 and again 33 to 37
    }
    world.lock(handle.inside()); // 38
}

/// "Both unoccupied vertices must be located outside the currently solved handle."
fn move_vacancies_out(world: &mut World, handle: &Handle) {
    let w = world.choose(world.unlocked_vacancies(), handle.before); // 2
    world.make_unoccupied(w);
    world.lock(1 << w);
    let z = world.choose(world.unlocked_vacancies(), handle.before & !(1 << w)); // 2
    world.make_unoccupied(z);
    world.unlock(1 << w);
}

/// An agent outside the handle is moved to u, and the cycle takes it in.
fn push_in(world: &mut World, handle: &Handle, agent: u8) {
    world.move_agent(agent, handle.u);
    world.lock(1 << handle.u);
    world.make_unoccupied(handle.v);
    world.unlock(handle.whole());
    world.rotate_forward(&handle.cycle, handle.v);
}

/// An agent inside the handle is turned out of it and put aside, and the cycle is turned back.
fn take_out(world: &mut World, handle: &Handle, agent: u8) {
    world.make_unoccupied(handle.u);
    world.unlock(handle.whole());
    let mut turns = 0;
    while world.place_of(agent) != handle.v {
        world.rotate_forward(&handle.cycle, handle.u);
        turns += 1;
    }
    world.lock(handle.inside());
    let y = world.choose(1 << handle.v, handle.before & !set_of(&handle.cycle)); // 23
    world.move_agent(agent, y);
    world.lock(1 << y);
    world.make_unoccupied(handle.u);
    world.unlock(handle.whole());
    for _ in 0..turns {
        world.rotate_backward(&handle.cycle, handle.u);
    }
    world.unlock(1 << y);
    world.lock(handle.inside());
}

/// Solve-Original-Cycle: wherever another agent stands than should, the two are exchanged. All that is not
/// on the cycle is locked.
fn solve_original_cycle(world: &mut World, goal: &ShiftedGoal, cycle: &[u8]) {
    for &position in &cycle[2..] {
        vacate_first_two(world, cycle); // 4 to 7
        let (wanted, standing) = (goal.agent_at[usize::from(position)], world.agent_at(position));
        if wanted != standing {
            let storage = storage_for(world, cycle, wanted); // 1
            exchange_agents(world, cycle, [wanted, standing], storage);
        }
    }
    vacate_first_two(world, cycle); // 10 to 13
}

fn vacate_first_two(world: &mut World, cycle: &[u8]) {
    world.make_unoccupied(cycle[0]);
    world.lock(1 << cycle[0]);
    world.make_unoccupied(cycle[1]);
    world.unlock(1 << cycle[0]);
}

/// Positions u on the cycle and v beside it that an edge joins. The nearest for an agent is the first that it
/// comes to.
fn storage_for(world: &World, cycle: &[u8], agent: u8) -> (u8, u8) {
    let from = match world.choice {
        Choice::Nearest => index_in(cycle, world.place_of(agent)),
        Choice::First => 0,
    };
    let beside = |u: u8| {
        let outside = world.floor.neighbours[usize::from(u)] & !set_of(cycle);
        (outside != 0).then(|| (u, outside.trailing_zeros() as u8))
    };
    let onward = cycle[from..].iter().chain(&cycle[..from]);
    onward.copied().find_map(beside).expect("a handle begins on the cycle")
}

/// Exchange-Agents: "v is used as a storage space". The first two positions of the cycle are vacant before;
/// afterwards the first is, and u.
fn exchange_agents(world: &mut World, cycle: &[u8], [a, b]: [u8; 2], (u, v): (u8, u8)) {
    let at = index_in(cycle, u);
    let (next, prev) = (cycle[(at + 1) % cycle.len()], cycle[(at + cycle.len() - 1) % cycle.len()]);
    let c = world.agent_at(v);
    world.lock(1 << cycle[0]); // not in the text: the way that leaves the first position vacant
    world.make_unoccupied(u); // 2
    world.unlock(1 << cycle[0]);
    world.move_agent_unoccupied(v, u);
    rotate_until(world, cycle, a, u); // 4 to 5
    world.move_agent_unoccupied(u, v);
    world.lock(1 << u); // 7
    world.make_unoccupied(next);
    let mut turns = 0;
    while world.place_of(b) != next {
        world.rotate_forward(cycle, u);
        turns += 1;
    }
    world.make_unoccupied(prev); // 13
    for (left, entered) in [(v, u), (u, prev), (next, u), (u, v)] {
        world.move_agent_unoccupied(left, entered);
    }
    for _ in 0..turns {
        world.rotate_backward(cycle, u); // 19
    }
    world.move_agent_unoccupied(v, u);
    rotate_until(world, cycle, c, u); // 22 to 23
    world.move_agent_unoccupied(u, v);
    world.make_unoccupied(cycle[0]); // not in the text: the way that does not pass u
    world.unlock(1 << u); // 25
}

/// Rotates the cycle by the vacancy on it until the agent stands at the position.
fn rotate_until(world: &mut World, cycle: &[u8], agent: u8, position: u8) {
    let vacant = *cycle.iter().find(|&&one| world.is_vacant(one)).expect("a vacancy on the cycle");
    while world.place_of(agent) != position {
        world.rotate_forward(cycle, vacant);
    }
}
