//! Transform-Goal and Finish-Solution: "it is required by the main phase of the algorithm that the two
//! unoccupied vertices are located in the first two vertices of the initial cycle within the goal
//! arrangement".

use crate::agents::Agents;
use crate::operation::{Choice, World};
use second::breakdown::{members, set_of};
use second::floor::all_positions;
use second::order::Floor;

/// A goal with the first two positions of the base ring vacant, and the way from there to the agents' own
/// goals.
pub struct ShiftedGoal {
    /// The agent that is to stand at each position, 0 if it is to be vacant.
    pub agent_at: [u8; 64],
    /// Each from a position that is vacant in the agents' own goals to one that is vacant in this goal.
    paths: [Vec<u8>; 2],
}

/// Transform-Goal: the agents' goals, shifted along two paths that share nothing until the first two positions
/// of the ring are vacant. By the nearest choice the ring is first turned so that the paths are shortest.
pub fn transform_goal(floor: &Floor, agents: &Agents, ring: &mut [u8], choice: Choice) -> ShiftedGoal {
    let mut agent_at = [0; 64];
    for (index, &goal) in agents.goals.iter().enumerate() {
        agent_at[usize::from(goal)] = index as u8 + 1;
    }
    let vacant = all_positions(floor.n) & !set_of(&agents.goals);
    if choice == Choice::Nearest {
        ring.rotate_left(nearest_pair(floor, vacant, ring));
    }
    let paths = disjoint_paths(floor, vacant, set_of(&ring[..2]));
    for two in paths.iter().flat_map(|path| path.windows(2)) {
        agent_at.swap(usize::from(two[0]), usize::from(two[1]));
    }
    ShiftedGoal { agent_at, paths }
}

/// Where on the ring the pair of neighbours begins to which the two paths are shortest.
fn nearest_pair(floor: &Floor, vacant: u64, ring: &[u8]) -> usize {
    let length = |&first: &usize| {
        let pair = [ring[first], ring[(first + 1) % ring.len()]];
        disjoint_paths(floor, vacant, set_of(&pair)).concat().len()
    };
    (0..ring.len()).min_by_key(length).expect("a ring has positions")
}

/// Finish-Solution: "shifting agents along the same two paths but in the opposite direction".
pub fn finish_solution(world: &mut World, goal: &ShiftedGoal) {
    for two in goal.paths.iter().flat_map(|path| path.windows(2).rev()) {
        world.move_agent_unoccupied(two[0], two[1]);
    }
}

/// Lemma 2: two paths without a common position from the two positions of `from` to the two of `to`,
/// whichever leads to which, together as short as any.
///
/// They are a flow of two units at least cost. Each position is split into an entry and an exit, joined by
/// an arc, so that one unit at most goes through it.
pub fn disjoint_paths(floor: &Floor, from: u64, to: u64) -> [Vec<u8>; 2] {
    let mut network = Network::new(floor, from, to);
    network.augment();
    network.augment();
    let mut starts = members(from);
    [(); 2].map(|()| network.path(starts.next().expect("two positions")))
}

/// An arc that takes one unit at a cost, and whether it does.
struct Arc {
    from: usize,
    to: usize,
    cost: i32,
    used: bool,
}

/// The arcs between entries, exits, a source and a sink.
struct Network {
    arcs: Vec<Arc>,
}

const SOURCE: usize = 128;
const SINK: usize = 129;
const NODES: usize = 130;

fn entry(position: usize) -> usize {
    2 * position
}

fn exit(position: usize) -> usize {
    2 * position + 1
}

impl Network {
    fn new(floor: &Floor, from: u64, to: u64) -> Network {
        let arc = |from, to, cost| Arc { from, to, cost, used: false };
        let mut arcs: Vec<Arc> = members(from).map(|start| arc(SOURCE, entry(start), 0)).collect();
        arcs.extend(members(to).map(|end| arc(exit(end), SINK, 0)));
        for position in 0..floor.n {
            arcs.push(arc(entry(position), exit(position), 0));
            arcs.extend(members(floor.neighbours[position]).map(|next| arc(exit(position), entry(next), 1)));
        }
        Network { arcs }
    }

    /// Sends one more unit from source to sink at least cost. A used arc is open the other way, and gives
    /// its cost back.
    fn augment(&mut self) {
        let last_arc = self.cheapest_ways();
        let mut at = SINK;
        while at != SOURCE {
            let arc = &mut self.arcs[last_arc[at].expect("the sink can be reached")];
            at = if arc.used { arc.to } else { arc.from };
            arc.used = !arc.used;
        }
    }

    /// The last arc of a cheapest way from the source to each node, by the method of Bellman and Ford.
    fn cheapest_ways(&self) -> [Option<usize>; NODES] {
        let mut cost_of = [i32::MAX; NODES];
        let mut last_arc = [None; NODES];
        cost_of[SOURCE] = 0;
        let mut changed = true;
        while changed {
            changed = false;
            for (index, arc) in self.arcs.iter().enumerate() {
                let (from, to, cost) = match arc.used {
                    false => (arc.from, arc.to, arc.cost),
                    true => (arc.to, arc.from, -arc.cost),
                };
                if cost_of[from] < i32::MAX && cost_of[from] + cost < cost_of[to] {
                    cost_of[to] = cost_of[from] + cost;
                    last_arc[to] = Some(index);
                    changed = true;
                }
            }
        }
        last_arc
    }

    /// The positions that the unit from this one goes through.
    fn path(&self, start: usize) -> Vec<u8> {
        let mut path = vec![start as u8];
        let mut at = start;
        loop {
            let used = self.arcs.iter().find(|arc| arc.from == exit(at) && arc.used);
            match used.expect("the unit goes on").to {
                SINK => return path,
                next => at = next / 2,
            }
            path.push(at as u8);
        }
    }
}
