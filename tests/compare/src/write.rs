//! Records written bit by bit from their fields, sound or not. Nothing here is shared with the second
//! implementation, which reads them.

/// A move: the position left, the position entered.
pub type Move = (u8, u8);

/// Bits, most significant first.
#[derive(Default)]
struct Bits {
    bytes: Vec<u8>,
    used: usize, // bits of the last byte, 0 if it is full
}

impl Bits {
    fn put(&mut self, value: usize, width: usize) {
        for bit in (0..width).rev() {
            if self.used == 0 {
                self.bytes.push(0);
            }
            let last = self.bytes.last_mut().expect("a byte was pushed");
            *last |= ((value >> bit & 1) as u8) << (7 - self.used);
            self.used = (self.used + 1) % 8;
        }
    }

    /// The pad: its bits are the lowest of this number, and 0 in a sound record.
    fn pad(&mut self, bits: u8) {
        let width = (8 - self.used) % 8;
        self.put(usize::from(bits), width);
    }

    fn put_moves(&mut self, moves: &[Move]) {
        for &(left, entered) in moves {
            self.put(usize::from(left), 6);
            self.put(usize::from(entered), 6);
        }
    }
}

/// The fields of an order record.
#[derive(Clone, Default)]
pub struct Order {
    pub n: usize,
    pub edges: Vec<Move>,
    pub starts: Vec<u8>,
    pub goals: Vec<u8>,
    pub spare: u8,
    pub pad: u8,
}

impl Order {
    pub fn record(&self) -> Vec<u8> {
        let mut bits = Bits::default();
        bits.put(self.n, 7);
        bits.put(self.edges.len(), 8);
        bits.put(self.starts.len(), 7);
        bits.put(usize::from(self.spare), 2);
        bits.put_moves(&self.edges);
        for &place in self.starts.iter().chain(&self.goals) {
            bits.put(usize::from(place), 6);
        }
        bits.pad(self.pad);
        bits.bytes
    }

    /// Whether the record has a pad.
    pub fn has_pad(&self) -> bool {
        (self.edges.len() + self.starts.len()) % 2 == 1
    }
}

/// The fields of a short order record.
#[derive(Clone, Default)]
pub struct ShortOrder {
    pub model: u8,
    pub starts: Vec<u8>,
    pub goals: Vec<u8>,
    pub spare: u8,
    pub pad: u8,
}

impl ShortOrder {
    pub fn record(&self) -> Vec<u8> {
        let mut bits = Bits::default();
        bits.put(usize::from(self.model), 8);
        bits.put(self.starts.len(), 7);
        bits.put(usize::from(self.spare), 1);
        for &place in self.starts.iter().chain(&self.goals) {
            bits.put(usize::from(place), 6);
        }
        bits.pad(self.pad);
        bits.bytes
    }
}

kinds! {
    /// The two forms of a plan record.
    pub enum Edition in EDITIONS {
        One,
        Two,
    }
}

impl Edition {
    /// The edition of an accepted record, by its spare bits.
    pub fn of(record: &[u8]) -> Edition {
        EDITIONS[usize::from(record[2] & 3)]
    }

    pub fn other(self) -> Edition {
        EDITIONS[1 - self as usize]
    }

    /// The bits of a move.
    pub fn width(self) -> usize {
        [12, 18][self as usize]
    }

    /// The spare bits of a sound record: 00 or 01.
    pub fn spare(self) -> u8 {
        self as u8
    }

    /// The length of the record of k moves.
    pub fn length(self, k: usize) -> usize {
        3 + (self.width() * k).div_ceil(8)
    }

    /// The bits of the pad behind k moves.
    pub fn pad_width(self, k: usize) -> usize {
        8 * self.length(k) - 24 - self.width() * k
    }
}

/// A move, and the rack that edition two writes with it, from 1 to 64.
pub type Drive = (Move, u8);

/// The fields of a plan record. Edition one leaves the racks out.
#[derive(Clone)]
pub struct Plan {
    pub edition: Edition,
    pub drives: Vec<Drive>,
    pub spare: u8,
    pub pad: u8,
}

impl Plan {
    /// With the edition's spare bits and no bit of the pad set.
    pub fn new(edition: Edition, drives: Vec<Drive>) -> Plan {
        Plan { edition, drives, spare: edition.spare(), pad: 0 }
    }

    /// In edition one, which names no racks.
    pub fn of_moves(moves: &[Move]) -> Plan {
        Plan::new(Edition::One, moves.iter().map(|&one| (one, 1)).collect())
    }

    pub fn record(&self) -> Vec<u8> {
        let mut bits = Bits::default();
        bits.put(self.drives.len(), 22);
        bits.put(usize::from(self.spare), 2);
        for &(one, rack) in &self.drives {
            bits.put_moves(&[one]);
            if self.edition == Edition::Two {
                bits.put(usize::from(rack) - 1, 6);
            }
        }
        bits.pad(self.pad);
        bits.bytes
    }

    /// The bits of its pad.
    pub fn pad_width(&self) -> usize {
        self.edition.pad_width(self.drives.len())
    }
}

/// The fields of one step.
#[derive(Clone, Default)]
pub struct Step {
    pub moves: Vec<Move>,
    pub pad: u8,
}

/// The fields of a timetable record.
#[derive(Clone, Default)]
pub struct Timetable {
    pub steps: Vec<Step>,
    pub spare: u8,
}

impl Timetable {
    pub fn record(&self) -> Vec<u8> {
        let mut bits = Bits::default();
        bits.put(self.steps.len(), 22);
        bits.put(usize::from(self.spare), 2);
        for step in &self.steps {
            bits.put(step.moves.len(), 8);
            bits.put_moves(&step.moves);
            bits.pad(step.pad);
        }
        bits.bytes
    }

    /// The sum of the count bytes.
    pub fn move_count(&self) -> usize {
        self.steps.iter().map(|step| step.moves.len()).sum()
    }
}
