//! Random seasons: order and timetable pairs one after another, and damage to them.

use crate::orders;
use crate::random::Random;
use crate::timetables;
use crate::write::{Order, Step, Timetable};
use std::fs::{self, File};
use std::os::fd::AsRawFd;
use std::slice;
use std::sync::atomic::{AtomicUsize, Ordering};

/// The shortest pair: an order of one position without edges and racks, and a timetable without steps.
pub const SHORTEST: [u8; 6] = [0x02, 0x00, 0x00, 0x00, 0x00, 0x00];

/// A pair that ends where its counts say: sound, or refused for any reason that leaves it whole.
pub fn whole_pair(random: &mut Random) -> Vec<u8> {
    loop {
        let (order, timetable) = match random.below(5) {
            0 => {
                let sound = timetables::random_sound(random);
                (sound.order.record(), sound.timetable.record())
            }
            // without positions; its timetable may have any steps
            1 if random.one_in(4) => (vec![0, 0, 0], timetables::random_packed(random).record()),
            _ => {
                let (_, case) = timetables::random_case(random);
                (case.order, case.record)
            }
        };
        let ends = (second::order::length(&order), second::timetable::length(&timetable));
        if ends == (Some(order.len()), Some(timetable.len())) {
            return [order, timetable].concat();
        }
    }
}

/// A pair of any kind: one that is cut short or has bytes behind it takes what follows along.
pub fn any_pair(random: &mut Random) -> Vec<u8> {
    let (_, case) = timetables::random_case(random);
    [case.order, case.record].concat()
}

kinds! {
    pub enum Damage in DAMAGES {
        None,
        PairOfAnyKind,
        Cut,
        Extended,
        BitFlipped,
        ByteLeftOut,
        ByteInserted,
        Noise,
    }
}

/// A season of so many pairs, with this damage.
pub fn damaged(random: &mut Random, pairs: usize, damage: Damage) -> Vec<u8> {
    let odd = random.below(pairs.max(1));
    let mut season = Vec::new();
    for number in 0..pairs {
        let any = damage == Damage::PairOfAnyKind && number == odd;
        season.extend(if any { any_pair(random) } else { whole_pair(random) });
    }
    let at = random.below(season.len().max(1));
    match damage {
        Damage::None | Damage::PairOfAnyKind => {}
        Damage::Cut => season.truncate(at),
        Damage::Extended => {
            let more = random.between(1, 40);
            season.extend(random.bytes(more));
        }
        Damage::BitFlipped if !season.is_empty() => orders::flip(random, &mut season),
        Damage::ByteLeftOut if !season.is_empty() => drop(season.remove(at)),
        Damage::ByteInserted => season.insert(at, random.below(256) as u8),
        Damage::BitFlipped | Damage::ByteLeftOut => {}
        Damage::Noise => {
            let length = random.below(60);
            season = random.bytes(length);
            season.iter_mut().step_by(3).for_each(|byte| *byte &= 7);
        }
    }
    season
}

/// A season of sound pairs, and where each of them begins; the last number is the season's length.
pub fn sound(random: &mut Random, pairs: usize) -> (Vec<u8>, Vec<usize>) {
    let mut season = Vec::new();
    let mut begins = vec![0];
    for _ in 0..pairs {
        let sound = timetables::random_sound(random);
        season.extend(sound.order.record());
        season.extend(sound.timetable.record());
        begins.push(season.len());
    }
    (season, begins)
}

/// An order whose racks stand in rows of nine positions, eight to a row and the last position vacant, and are to stand
/// there again; and the steps that take each row one position on, and back.
pub fn rows_of_nine(rows: u8) -> (Order, [Step; 2]) {
    let places = |from: u8| (0..rows).flat_map(move |row| (0..8).map(move |at| row * 9 + at + from));
    let there: Vec<(u8, u8)> = places(0).map(|at| (at, at + 1)).collect();
    let back: Vec<(u8, u8)> = there.iter().map(|&(left, entered)| (entered, left)).collect();
    let starts: Vec<u8> = places(0).collect();
    let order = Order {
        n: usize::from(rows) * 9,
        edges: there.clone(),
        starts: starts.clone(),
        goals: starts,
        spare: 0,
        pad: 0,
    };
    (order, [there, back].map(|moves| Step { moves, pad: 0 }))
}

/// A pair of this order and so many steps, these in turn.
pub fn pair_of(order: &Order, steps: &[Step; 2], count: usize) -> Vec<u8> {
    let steps = (0..count).map(|index| steps[index % 2].clone()).collect();
    [order.record(), Timetable { steps, spare: 0 }.record()].concat()
}

mod symbols {
    extern "C" {
        pub fn mmap(at: *mut u8, length: usize, rights: i32, flags: i32, file: i32, from: i64) -> *mut u8;
        pub fn munmap(at: *mut u8, length: usize) -> i32;
    }
}

/// Linux's PROT_NONE, PROT_READ, MAP_SHARED, MAP_PRIVATE, MAP_FIXED, MAP_ANONYMOUS and MAP_NORESERVE.
const NONE: i32 = 0;
const READ: i32 = 1;
const SHARED: i32 = 1;
const PRIVATE: i32 = 2;
const FIXED: i32 = 0x10;
const ANONYMOUS: i32 = 0x20;
const NO_RESERVE: i32 = 0x4000;

static FILES: AtomicUsize = AtomicUsize::new(0);

/// Calls with the bytes so many times over, more of them than memory holds: the pages of one file, again and again.
/// Their number is a multiple of 4,096.
pub fn with_repeated<T>(bytes: &[u8], times: usize, call: impl FnOnce(&[u8]) -> T) -> T {
    assert_eq!(bytes.len() % 4096, 0, "not whole pages");
    let length = bytes.len() * times;
    // tests run side by side, each with a file of its own
    let number = FILES.fetch_add(1, Ordering::Relaxed);
    let path = std::env::temp_dir().join(format!("wichteab_season_{}_{number}", std::process::id()));
    fs::write(&path, bytes).expect("it is written");
    let file = File::open(&path).expect("it is there");
    fs::remove_file(&path).expect("it is removed; what is open stays");
    unsafe {
        let flags = PRIVATE | ANONYMOUS | NO_RESERVE;
        let base = symbols::mmap(std::ptr::null_mut(), length, NONE, flags, -1, 0);
        assert_ne!(base as isize, -1, "no address space");
        for index in 0..times {
            let at = base.add(index * bytes.len());
            let mapped = symbols::mmap(at, bytes.len(), READ, SHARED | FIXED, file.as_raw_fd(), 0);
            assert_eq!(mapped, at, "the file is not mapped");
        }
        let result = call(slice::from_raw_parts(base, length));
        assert_eq!(symbols::munmap(base, length), 0);
        result
    }
}
