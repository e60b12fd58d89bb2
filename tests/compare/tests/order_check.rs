//! The proved order reader against the second one.

use compare::orders::{self, DAMAGES};
use compare::packed;
use compare::proved;
use compare::random::Random;
use compare::tally::{each_met, Hex, Tally};
use compare::write::Order;

const NUMBERS: [u8; 6] = [0, 10, 11, 12, 13, 14];

fn second(record: &[u8]) -> u64 {
    packed::nothing(second::order::check(record))
}

fn compare(tally: &mut Tally, record: &[u8]) -> u64 {
    let expected = second(record);
    tally.compare(proved::order_check(record), expected, &[record]);
    expected
}

/// A list of positions.
fn places(range: std::ops::Range<usize>) -> Vec<u8> {
    range.map(|place| place as u8).collect()
}

/// The record of an order with these fields.
fn record(n: usize, edges: &[(u8, u8)], starts: &[u8], goals: &[u8]) -> Vec<u8> {
    Order { n, edges: edges.to_vec(), starts: starts.to_vec(), goals: goals.to_vec(), spare: 0, pad: 0 }
        .record()
}

#[test]
fn sound_records_of_every_size() {
    let mut random = Random::new(0x5EED_0001);
    let mut tally = Tally::new("order_check, sound records");
    let mut sizes = [false; 65];
    let mut most_edges = 0;
    for _ in 0..100_000 {
        let order = orders::random_order(&mut random);
        assert_eq!(compare(&mut tally, &order.record()), 0);
        sizes[order.n] = true;
        most_edges = most_edges.max(order.edges.len());
    }
    assert!(sizes[1..].iter().all(|&met| met), "a size was not met");
    assert_eq!(most_edges, 255);
    tally.finish(100_000, &[0]);
}

#[test]
fn every_kind_of_damage() {
    let mut random = Random::new(0x5EED_0002);
    let mut tally = Tally::new("order_check, one damage");
    let mut met = [0; DAMAGES.len()];
    for _ in 0..400_000 {
        let order = orders::random_order(&mut random);
        let damage = orders::random_damage(&mut random, &order);
        let record = orders::damaged(&mut random, &order, damage);
        let answer = compare(&mut tally, &record);
        if let Some(number) = damage.number() {
            assert_eq!(answer, u64::from(number), "{damage:?}: {}", Hex(&record));
        }
        met[damage as usize] += 1;
    }
    each_met(&DAMAGES, &met);
    tally.finish(400_000, &NUMBERS);
}

#[test]
fn the_lowest_of_several_numbers() {
    let mut random = Random::new(0x5EED_0003);
    let mut tally = Tally::new("order_check, several damages");
    for _ in 0..200_000 {
        let order = orders::random_order(&mut random);
        let record = orders::damaged_often(&mut random, &order);
        compare(&mut tally, &record);
    }
    tally.finish(200_000, &NUMBERS);
}

#[test]
fn every_bit_and_every_length_of_the_case_books_order() {
    let order = [0x08, 0x0A, 0x08, 0x00, 0x10, 0x02, 0x04, 0x20, 0x43, 0x08, 0x30, 0x03, 0x0C, 0x00];
    let mut tally = Tally::new("order_check, the case book's order with up to two bits flipped, or cut");
    for first in 0..8 * order.len() {
        for other in 0..8 * order.len() {
            let mut record = order;
            record[first / 8] ^= 0x80 >> (first % 8);
            record[other / 8] ^= 0x80 >> (other % 8);
            compare(&mut tally, &record);
        }
    }
    for length in 0..order.len() {
        compare(&mut tally, &order[..length]);
    }
    tally.close(12_558);
}

#[test]
fn every_head() {
    let mut tally = Tally::new("order_check, every head alone, and with as many zero bytes as it asks for");
    for head in 0..1u32 << 24 {
        let mut record = [0; 3 + 573];
        record[..3].copy_from_slice(&head.to_be_bytes()[1..]);
        let length = second::order::length(&record).expect("it has its head");
        compare(&mut tally, &record[..3]);
        compare(&mut tally, &record[..length]);
    }
    tally.close(33_554_432);
}

#[test]
fn boundaries_by_hand() {
    let all = places(0..64);
    let too_many = &places(0..64).repeat(2)[..127];
    let most: Vec<(u8, u8)> = (0..64).flat_map(|a| (a + 1..64).map(move |b| (a, b))).take(255).collect();
    let cases: &[(u8, Vec<u8>)] = &[
        // short input
        (10, vec![]),
        (10, vec![0x08]),
        (10, vec![0x08, 0x0A]),
        (10, vec![0x08, 0x0A, 0x08]),
        (11, vec![0x00, 0x00, 0x00]),
        (12, vec![0x02, 0x00, 0x01]),
        (12, vec![0x02, 0x00, 0x02]),
        // n
        (0, record(1, &[], &[], &[])),
        (0, record(1, &[], &[0], &[0])),
        (13, record(1, &[(0, 1)], &[], &[])),
        (0, record(2, &[(0, 1)], &[], &[])),
        (0, record(64, &[], &[63], &[0])),
        (0, record(64, &[(62, 63)], &[], &[])),
        (11, record(65, &[], &[], &[])),
        (11, record(127, &[], &[], &[])),
        // n is judged after the length, and before spare and pad bits
        (10, vec![0x00, 0x00, 0x03, 0x00]),
        (11, vec![0x00, 0x00, 0x03]),
        (11, vec![0x82, 0x02, 0x03, 0xFF, 0xFF]),
        // spare and pad bits are judged before edges
        (12, vec![0x02, 0x02, 0x00, 0xFF, 0xFF]),
        (13, vec![0x02, 0x02, 0x00, 0xFF, 0xF0]),
        // edges, judged before racks
        (13, record(3, &[(0, 2), (0, 1)], &[9], &[9])),
        (13, record(3, &[(0, 1), (0, 1)], &[], &[])),
        (13, record(3, &[(1, 2), (0, 1)], &[], &[])),
        (13, record(3, &[(1, 0)], &[], &[])),
        (13, record(3, &[(0, 0)], &[], &[])),
        (13, record(3, &[(2, 3)], &[], &[])),
        (0, record(3, &[(0, 2), (1, 2)], &[], &[])),
        (0, record(64, &most, &[], &[])),
        (0, record(64, &most, &all, &all)),
        (13, record(63, &most, &[], &[])),
        // racks: none, all, more than there are positions
        (0, record(5, &[], &[], &[])),
        (0, record(5, &[], &[4, 3, 2, 1, 0], &[0, 1, 2, 3, 4])),
        (14, record(5, &[], &[4, 3, 2, 1, 0, 5], &[0, 1, 2, 3, 4, 5])),
        (14, record(5, &[], &[4, 3, 2, 1, 0, 0], &[0, 1, 2, 3, 4, 4])),
        (14, record(64, &[], too_many, too_many)),
        (13, record(64, &[(0, 0)], too_many, too_many)),
        (10, record(64, &[], too_many, &too_many[..126])),
        // shared and out of range: the first rack, the last rack
        (14, record(5, &[], &[1, 2, 1], &[0, 1, 2])),
        (14, record(5, &[], &[0, 1, 2], &[3, 4, 4])),
        (14, record(5, &[], &[5, 1, 2], &[2, 3, 4])),
        (14, record(5, &[], &[0, 1, 2], &[2, 3, 5])),
        // one rack's start may be another's goal, or its own
        (0, record(5, &[], &[0, 1, 2], &[1, 2, 0])),
        (0, record(5, &[], &[0, 1, 2], &[0, 1, 2])),
    ];
    let mut tally = Tally::new("order_check, boundaries by hand");
    for (number, record) in cases {
        assert_eq!(compare(&mut tally, record), u64::from(*number), "{}", Hex(record));
    }
    tally.close(43);
}
