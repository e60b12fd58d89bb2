//! "The floor is taken apart into a base ring that leaves out at least one position, and handles."

use crate::floor::all_positions;
use crate::order::Floor;

/// A base ring and handles. A handle is its whole path: one end, the inner positions, the other end.
#[derive(Clone, PartialEq, Eq, Debug)]
pub struct Breakdown {
    pub ring: Vec<u8>,
    pub handles: Vec<Vec<u8>>,
}

/// The first rule of "Breakdown and planning" that the breakdown does not keep, in words.
pub fn broken_rule(floor: &Floor, breakdown: &Breakdown) -> Option<String> {
    let mut settled = match judge_ring(floor, &breakdown.ring) {
        Ok(positions) => positions,
        Err(rule) => return Some(format!("base ring {:?}: {rule}", breakdown.ring)),
    };
    for (index, handle) in breakdown.handles.iter().enumerate() {
        match judge_handle(floor, handle, settled) {
            Ok(inner) => settled |= inner,
            Err(rule) => return Some(format!("handle {} {handle:?}: {rule}", index + 1)),
        }
    }
    // "Every position is in the ring or inside exactly one handle; unused edges may remain."
    // Inner positions are new to what came before, so none was met twice.
    (settled != all_positions(floor.n)).then(|| "a position is in neither ring nor handle".to_string())
}

/// "a base ring that leaves out at least one position": its positions, or the rule it breaks.
fn judge_ring(floor: &Floor, ring: &[u8]) -> Result<u64, &'static str> {
    let positions = distinct(floor, ring)?;
    if ring.len() < 3 {
        return Err("under three positions");
    }
    if ring.len() >= floor.n {
        return Err("leaves no position out");
    }
    if !is_walk(floor, ring) || !joined(floor, ring[ring.len() - 1], ring[0]) {
        return Err("two positions that follow each other are not joined");
    }
    Ok(positions)
}

/// "A handle is a path whose two different ends lie in what came before and whose inner positions, at
/// least one, are new": its inner positions, or the rule it breaks.
fn judge_handle(floor: &Floor, handle: &[u8], settled: u64) -> Result<u64, &'static str> {
    let positions = distinct(floor, handle)?;
    let [first, inner @ .., last] = handle else { return Err("under two ends") };
    let ends = 1 << first | 1 << last;
    if inner.is_empty() {
        return Err("no inner position");
    }
    if ends & settled != ends {
        return Err("an end does not lie in what came before");
    }
    if positions & !ends & settled != 0 {
        return Err("an inner position is not new");
    }
    if !is_walk(floor, handle) {
        return Err("two positions that follow each other are not joined");
    }
    Ok(positions & !ends)
}

/// The set of the listed positions, if each is on the floor and none is listed twice.
fn distinct(floor: &Floor, list: &[u8]) -> Result<u64, &'static str> {
    let mut set = 0u64;
    for &position in list {
        if usize::from(position) >= floor.n {
            return Err("a position of n or more");
        }
        if set >> position & 1 == 1 {
            return Err("a position twice");
        }
        set |= 1 << position;
    }
    Ok(set)
}

fn joined(floor: &Floor, a: u8, b: u8) -> bool {
    floor.joined(usize::from(a), usize::from(b))
}

/// Whether an edge joins every two positions that follow each other.
fn is_walk(floor: &Floor, list: &[u8]) -> bool {
    list.windows(2).all(|two| joined(floor, two[0], two[1]))
}

/// "Such a breakdown is found for every floor that passes 20 to 22", so for no ring: one with a shortest ring, and
/// with handles chosen shortest first, lowest first where several are. None for other floors.
pub fn find(floor: &Floor) -> Option<Breakdown> {
    let ring = shortest_ring(floor)?;
    let all = all_positions(floor.n);
    let mut settled = set_of(&ring);
    if settled == all {
        return None;
    }
    let mut handles = Vec::new();
    while settled != all {
        let handle = shortest_handle(floor, settled)?;
        settled |= set_of(&handle);
        handles.push(handle);
    }
    Some(Breakdown { ring, handles })
}

/// The set of the listed positions.
pub fn set_of(list: &[u8]) -> u64 {
    list.iter().fold(0, |set, &position| set | 1 << position)
}

/// The positions of a set, lowest first.
pub fn members(mut set: u64) -> impl Iterator<Item = usize> {
    std::iter::from_fn(move || {
        let lowest = set.trailing_zeros() as usize;
        set &= set.wrapping_sub(1);
        (lowest < 64).then_some(lowest)
    })
}

/// Of the shortest ways between an edge's ends without that edge, a shortest: it closes to a ring.
fn shortest_ring(floor: &Floor) -> Option<Vec<u8>> {
    let all = all_positions(floor.n);
    let mut shortest: Option<Vec<u8>> = None;
    for a in 0..floor.n {
        for b in members(floor.neighbours[a] & !(all_positions(a + 1))) {
            let mut without = floor.clone();
            without.neighbours[a] &= !(1 << b);
            without.neighbours[b] &= !(1 << a);
            shortest = shorter(shortest, shortest_path(&without, a, 1 << b, all));
        }
    }
    shortest
}

/// A settled position, then a shortest way from a new neighbour of it through new positions to
/// another settled position.
fn shortest_handle(floor: &Floor, settled: u64) -> Option<Vec<u8>> {
    let new = all_positions(floor.n) & !settled;
    let mut shortest = None;
    for end in members(settled) {
        for first in members(floor.neighbours[end] & new) {
            let rest = shortest_path(floor, first, settled & !(1 << end), new);
            let handle = rest.map(|path| [&[end as u8], path.as_slice()].concat());
            shortest = shorter(shortest, handle);
        }
    }
    shortest
}

/// The shorter path, the first if both are as long.
fn shorter(first: Option<Vec<u8>>, second: Option<Vec<u8>>) -> Option<Vec<u8>> {
    [first, second].into_iter().flatten().min_by_key(Vec::len)
}

/// A shortest path from a position to one of the targets, its inner positions among the allowed:
/// breadth-first search.
pub fn shortest_path(floor: &Floor, from: usize, targets: u64, allowed: u64) -> Option<Vec<u8>> {
    let mut parent = [from as u8; 64];
    let mut seen = 1u64 << from;
    let mut level = seen;
    while level != 0 {
        let mut next = 0u64;
        for at in members(level) {
            let fresh = floor.neighbours[at] & (allowed | targets) & !seen;
            for position in members(fresh) {
                parent[position] = at as u8;
            }
            seen |= fresh;
            next |= fresh;
        }
        if let Some(target) = members(next & targets).next() {
            return Some(path_to(&parent, from, target));
        }
        level = next;
    }
    None
}

/// The path that the parents give, from its first position on.
fn path_to(parent: &[u8; 64], from: usize, target: usize) -> Vec<u8> {
    let mut path = vec![target as u8];
    let mut at = target;
    while at != from {
        at = usize::from(parent[at]);
        path.push(at as u8);
    }
    path.reverse();
    path
}
