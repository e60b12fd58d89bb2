//! How many cases were compared, and how often each number was met.

use std::fmt::{self, Debug, Display, Formatter};

/// Bytes as two hexadecimal digits each, for the message of a difference.
pub struct Hex<'a>(pub &'a [u8]);

impl Display for Hex<'_> {
    fn fmt(&self, out: &mut Formatter<'_>) -> fmt::Result {
        self.0.iter().try_for_each(|byte| write!(out, "{byte:02X} "))
    }
}

/// Prints how often each kind of damage was met, and sees that each was met at least 1,000 times.
#[track_caller]
pub fn each_met<Damage: Debug>(damages: &[Damage], met: &[u64]) {
    for (damage, &times) in damages.iter().zip(met) {
        println!("  {damage:?} {times}");
        assert!(times >= 1000, "{damage:?} met {times} times only");
    }
}

/// The answers met so far, by their number.
pub struct Tally {
    name: &'static str,
    met: [u64; 256],
}

impl Tally {
    pub fn new(name: &'static str) -> Tally {
        Tally { name, met: [0; 256] }
    }

    /// Holds the proved answer to the second implementation's, and counts its number.
    #[track_caller]
    pub fn compare(&mut self, proved: u64, second: u64, records: &[&[u8]]) {
        if proved != second {
            let shown: Vec<String> = records.iter().map(|record| Hex(record).to_string()).collect();
            panic!("{}: proved {proved:#x}, second {second:#x}, on {}", self.name, shown.join("| "));
        }
        self.met[(second & 0xFF) as usize] += 1;
    }

    /// Counts another tally's cases too.
    pub fn add(&mut self, other: &Tally) {
        for (met, also) in self.met.iter_mut().zip(&other.met) {
            *met += also;
        }
    }

    /// The number of cases so far.
    pub fn cases(&self) -> u64 {
        self.met.iter().sum()
    }

    /// Prints, and sees that there were enough cases.
    #[track_caller]
    pub fn close(&self, least_cases: u64) {
        self.print();
        assert!(self.cases() >= least_cases, "{}: under {least_cases} cases", self.name);
    }

    /// Counts an answer that was judged by rules and not compared.
    pub fn count(&mut self, answer: u64) {
        self.met[(answer & 0xFF) as usize] += 1;
    }

    /// Prints how many cases there were, and how often each number was met.
    fn print(&self) {
        println!("{}: {} cases compared", self.name, self.cases());
        for (number, met) in self.met.iter().enumerate().filter(|(_, &met)| met > 0) {
            match number {
                0 => println!("  accepted {met}"),
                _ => println!("  {number} {met}"),
            }
        }
    }

    /// Prints, and sees that there were enough cases, that each of these numbers (0 for accepted) was met
    /// at least 1,000 times, and that no other was met.
    #[track_caller]
    pub fn finish(&self, least_cases: u64, numbers: &[u8]) {
        self.finish_each(least_cases, 1000, numbers);
    }

    /// The same with another least count for each number.
    #[track_caller]
    pub fn finish_each(&self, least_cases: u64, least_each: u64, numbers: &[u8]) {
        self.close(least_cases);
        for number in 0..=255 {
            let met = self.met[usize::from(number)];
            if numbers.contains(&number) {
                assert!(met >= least_each, "{}: {number} met {met} times only", self.name);
            } else {
                assert_eq!(met, 0, "{}: {number} is not a number of this function", self.name);
            }
        }
    }
}
