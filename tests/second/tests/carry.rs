//! The dearest carry by all pairs and all plans: on every connected floor of up to five positions every shortest plan of
//! every pair is listed, by replay alone.

use second::carry::{distances, find, one_rack, shortest_plans, Carry, Moves};
use second::floor::{all_positions, is_connected};
use second::order::Floor;
use second::plan::{self, Edition};

/// The floors of n positions, one for each set of edges.
fn every_floor(n: usize) -> impl Iterator<Item = (Floor, Vec<(usize, usize)>)> {
    let pairs: Vec<(usize, usize)> = (0..n).flat_map(|a| (a + 1..n).map(move |b| (a, b))).collect();
    (0..1u32 << pairs.len()).map(move |chosen| {
        let edges: Vec<(usize, usize)> = pairs
            .iter()
            .enumerate()
            .filter(|(bit, _)| chosen >> bit & 1 == 1)
            .map(|(_, &edge)| edge)
            .collect();
        let mut neighbours = [0; 64];
        for &(a, b) in &edges {
            neighbours[a] |= 1 << b;
            neighbours[b] |= 1 << a;
        }
        (Floor { n, e: edges.len(), neighbours }, edges)
    })
}

/// The record of an order without racks on the floor.
fn record(n: usize, edges: &[(usize, usize)]) -> Vec<u8> {
    let mut bits: Vec<bool> = Vec::new();
    let mut put = |value: usize, width: usize| bits.extend((0..width).rev().map(|bit| value >> bit & 1 == 1));
    put(n, 7);
    put(edges.len(), 8);
    put(0, 9);
    for &(a, b) in edges {
        put(a, 6);
        put(b, 6);
    }
    bits.chunks(8)
        .map(|byte| (0..8).fold(0, |sum, at| sum << 1 | u8::from(byte.get(at) == Some(&true))))
        .collect()
}

/// "the one entering the lower position at the first move where they differ"
fn first_plan(plans: Vec<Moves>) -> Moves {
    let entered = |plan: &Moves| plan.iter().map(|&(_, entered)| entered).collect::<Vec<usize>>();
    plans.into_iter().min_by_key(entered).expect("a plan")
}

#[test]
fn by_all_pairs_and_all_plans() {
    let (mut floors, mut pairs_tied, mut plans_tied) = (0, 0, 0);
    for n in 1..=5 {
        for (floor, edges) in every_floor(n) {
            let mut buffer = [0x5A; 64];
            let answer = find(&record(n, &edges), &mut buffer);
            if !is_connected(&floor, all_positions(n)) {
                assert_eq!(answer.map_err(|refusal| refusal.number), Err(27));
                assert_eq!(buffer, [0x5A; 64]);
                continue;
            }
            let shortest = |start, goal| shortest_plans(&floor, start, goal);
            let all: Vec<(usize, usize)> = (0..n).flat_map(|a| (0..n).map(move |b| (a, b))).collect();
            let lengths: Vec<usize> = all.iter().map(|&(a, b)| shortest(a, b)[0].len()).collect();
            let told = distances(&floor);
            assert!(all.iter().zip(&lengths).all(|(&(a, b), &length)| told[a][b] == length));
            let moves = *lengths.iter().max().expect("a pair");
            let first = lengths.iter().position(|&length| length == moves).expect("a pair");
            let (start, goal) = all[first];
            assert_eq!(answer, Ok(Carry { start, goal, moves }));

            let plans = shortest(start, goal);
            floors += 1;
            pairs_tied += u32::from(lengths.iter().filter(|&&length| length == moves).count() > 2);
            plans_tied += u32::from(plans.len() > 1);
            let due = first_plan(plans);
            let length = plan::length(Edition::Two, moves);
            let written = plan::read(&buffer[..length]).expect("a plan");
            assert!(plan::replay(&one_rack(&floor, start, goal), written).is_ok());
            let pairs: Vec<u16> = due.iter().map(|&(left, entered)| (left << 6 | entered) as u16).collect();
            assert_eq!(written.pairs().collect::<Vec<u16>>(), pairs);
            assert!(buffer[length..].iter().all(|&byte| byte == 0x5A));
        }
    }
    println!("carry: {floors} connected floors, several dearest pairs on {pairs_tied}, several plans on {plans_tied}");
    assert!(floors == 772 && pairs_tied >= 300 && plans_tied >= 200);
}
