//! The rules of a breakdown, each broken in turn on a floor of six positions, two rows of three.

use second::breakdown::{broken_rule, find, Breakdown};
use second::order::Floor;

///  0-1-2
///  | | |
///  3-4-5
fn floor() -> Floor {
    floor_of(6, &[(0, 1), (0, 3), (1, 2), (1, 4), (2, 5), (3, 4), (4, 5)])
}

fn floor_of(n: usize, edges: &[(usize, usize)]) -> Floor {
    let mut neighbours = [0; 64];
    for &(a, b) in edges {
        neighbours[a] |= 1 << b;
        neighbours[b] |= 1 << a;
    }
    Floor { n, e: edges.len(), neighbours }
}

/// What is wrong with this ring and these handles, or "" if nothing is.
fn judged(ring: &[u8], handles: &[&[u8]]) -> String {
    let handles = handles.iter().map(|handle| handle.to_vec()).collect();
    broken_rule(&floor(), &Breakdown { ring: ring.to_vec(), handles }).unwrap_or_default()
}

#[test]
fn sound_breakdowns() {
    assert_eq!(judged(&[0, 1, 4, 3], &[&[1, 2, 5, 4]]), "");
    assert_eq!(judged(&[4, 1, 2, 5], &[&[4, 3, 0, 1]]), "");
}

#[test]
fn rings_refused() {
    assert_eq!(judged(&[], &[]), "base ring []: under three positions");
    assert_eq!(judged(&[0, 1], &[]), "base ring [0, 1]: under three positions");
    assert_eq!(judged(&[0, 1, 2, 5, 4, 3], &[]), "base ring [0, 1, 2, 5, 4, 3]: leaves no position out");
    assert_eq!(judged(&[0, 1, 4, 1], &[]), "base ring [0, 1, 4, 1]: a position twice");
    assert_eq!(judged(&[0, 1, 6], &[]), "base ring [0, 1, 6]: a position of n or more");
    let not_joined = "base ring [0, 1, 4]: two positions that follow each other are not joined";
    assert_eq!(judged(&[0, 1, 4], &[]), not_joined); // 4 and 0
    let not_joined = "base ring [0, 4, 1, 3]: two positions that follow each other are not joined";
    assert_eq!(judged(&[0, 4, 1, 3], &[]), not_joined);
}

#[test]
fn handles_refused() {
    let ring = [0, 1, 4, 3];
    assert_eq!(judged(&ring, &[]), "a position is in neither ring nor handle");
    assert_eq!(judged(&ring, &[&[]]), "handle 1 []: under two ends");
    assert_eq!(judged(&ring, &[&[1]]), "handle 1 [1]: under two ends");
    assert_eq!(judged(&ring, &[&[1, 4]]), "handle 1 [1, 4]: no inner position");
    assert_eq!(judged(&ring, &[&[1, 2, 1]]), "handle 1 [1, 2, 1]: a position twice"); // equal ends
    assert_eq!(judged(&ring, &[&[1, 2, 5]]), "handle 1 [1, 2, 5]: an end does not lie in what came before");
    assert_eq!(judged(&ring, &[&[0, 1, 4]]), "handle 1 [0, 1, 4]: an inner position is not new");
    let not_joined = "handle 1 [1, 5, 2, 4]: two positions that follow each other are not joined";
    assert_eq!(judged(&ring, &[&[1, 5, 2, 4]]), not_joined);
    let again = "handle 2 [1, 2, 5, 4]: an inner position is not new";
    assert_eq!(judged(&ring, &[&[1, 2, 5, 4], &[1, 2, 5, 4]]), again);
}

#[test]
fn breakdowns_found() {
    let found = find(&floor()).unwrap();
    assert_eq!(found, Breakdown { ring: vec![0, 3, 4, 1], handles: vec![vec![1, 2, 5, 4]] });
    assert_eq!(broken_rule(&floor(), &found), None);
}

#[test]
fn no_breakdown_of_other_floors() {
    assert_eq!(find(&floor_of(3, &[(0, 1), (0, 2), (1, 2)])), None); // a ring
    assert_eq!(find(&floor_of(3, &[(0, 1), (1, 2)])), None); // a path
    assert_eq!(find(&floor_of(4, &[(0, 1), (0, 2), (1, 2), (2, 3)])), None); // 3 hangs on 2
    assert_eq!(find(&floor_of(4, &[(0, 1), (0, 2), (1, 2)])), None); // 3 is apart
}
