//! Where an order ends that other bytes follow: the proved function against the second implementation.

use compare::orders;
use compare::proved;
use compare::random::Random;
use compare::tally::Hex;

/// The length, after both said the same; 0 where the bytes end before the order does.
#[track_caller]
fn compare(bytes: &[u8]) -> usize {
    let second = second::order::length(bytes).filter(|&end| end <= bytes.len()).unwrap_or(0);
    assert_eq!(proved::order_length(bytes), second as u64, "{}", Hex(bytes));
    second
}

#[test]
fn sound_orders_with_bytes_behind_them() {
    let mut random = Random::new(0x5EED_9001);
    for _ in 0..100_000 {
        let mut bytes = orders::random_order(&mut random).record();
        let end = bytes.len();
        assert_eq!(compare(&bytes), end);
        let behind = random.between(1, 40);
        bytes.extend(random.bytes(behind));
        assert_eq!(compare(&bytes), end);
        bytes.truncate(random.below(end));
        assert_eq!(compare(&bytes), 0);
    }
}

#[test]
fn damaged_orders() {
    let mut random = Random::new(0x5EED_9002);
    let (mut whole, mut none) = (0, 0);
    for _ in 0..200_000 {
        let order = orders::random_order(&mut random);
        let bytes = match random.one_in(2) {
            true => orders::damaged_often(&mut random, &order),
            false => {
                let damage = orders::random_damage(&mut random, &order);
                orders::damaged(&mut random, &order, damage)
            }
        };
        match compare(&bytes) {
            0 => none += 1,
            _ => whole += 1,
        }
    }
    println!("order_length: {whole} whole orders, {none} cut short");
    assert!(whole >= 10_000 && none >= 10_000);
}

#[test]
fn every_head_and_every_cut() {
    // the counts stand in the 15 bits from bit 7 on; n and the spare bits change nothing
    let mut random = Random::new(0x5EED_9003);
    let mut bytes = random.bytes(3 + 12 * (255 + 127) / 8);
    for head in 0..1u32 << 15 {
        let bits = (random.below(128) as u32) << 17 | head << 2 | random.below(4) as u32;
        bytes[..3].copy_from_slice(&bits.to_be_bytes()[1..]);
        let end = compare(&bytes);
        assert!(end >= 3);
        compare(&bytes[..end]);
        compare(&bytes[..end - 1]);
    }
    for length in 0..3 {
        assert_eq!(compare(&bytes[..length]), 0);
    }
}
