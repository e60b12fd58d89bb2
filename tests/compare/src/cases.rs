//! An order, and a plan or a timetable for it: sound, or with one damage.

use crate::orders;
use crate::random::Random;
use crate::write::Order;

/// The order, the other record, and the checker's answer where it is certain.
pub struct Case {
    pub order: Vec<u8>,
    pub record: Vec<u8>,
    pub answer: Option<u64>,
}

/// A case with a random damage. The list begins with no damage, and with damage to the order.
pub fn random_case<Sample, Damage: Copy>(
    random: &mut Random,
    damages: &[Damage],
    random_sound: fn(&mut Random) -> Sample,
    damaged: impl Fn(&mut Random, &Sample, Damage) -> Option<Case>,
) -> (Damage, Case) {
    loop {
        let sound = random_sound(random);
        let damage = match random.below(10) {
            0 | 1 => damages[0],
            2 => damages[1],
            _ => random.pick(damages),
        };
        if let Some(case) = damaged(random, &sound, damage) {
            return (damage, case);
        }
    }
}

/// The case with its order damaged, and at times the other record too.
pub fn order_damaged(random: &mut Random, order: &Order, mut record: Vec<u8>) -> Case {
    let damage = orders::random_damage(random, order);
    if random.one_in(4) {
        orders::flip(random, &mut record);
    }
    let answer = damage.number().map(u64::from);
    Case { order: orders::damaged(random, order, damage), record, answer }
}
