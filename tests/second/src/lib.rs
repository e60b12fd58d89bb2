//! Document 01, "Two-vacancy rack floor", implemented a second time and from the paper alone.
//!
//! The proved library is compared with this one on random and damaged records, so nothing here is
//! taken from it. Each item stands under the sentence of document 01 that it follows. It is also
//! what the benchmarks measure the proved library against: linear, and no allocation per move or step.
//!
//! | module      | section of document 01            | numbers            |
//! |-------------|-----------------------------------|--------------------|
//! | `record`    | Records: fields, pads, lengths    |                    |
//! | `order`     | Records, the order                | 10 to 14           |
//! | `motion`    | Legal moves and steps, request (i) |                   |
//! | `plan`      | Records, the plan; (c) and (h)    | 30 to 36           |
//! | `timetable` | Records, the timetable            | 40 to 43, 45       |
//! | `making`    | Making the timetable, request (i) | 44                 |
//! | `floor`     | The floor, requests (d) and (j)   | 20, 21, 24, 26     |
//! | `breakdown` | Breakdown and planning            |                    |
//! | `planning`  | Breakdown and planning, demand 3, (h) | 23             |
//! | `program`   | Programs                          |                    |
//! | `models`    | request (a), floors by model code | 50, 51, 14, 52     |
//! | `clearing`  | request (b), the nearest vacancy  |                    |
//! | `shortening` | requests (e) and (h), shorter plans | 37              |
//! | `converting` | request (h), the other edition   | 38                 |
//! | `live`      | request (k), the live floor       | 60 to 62           |
//! | `shortest`  | requests (g) and (i), no shorter timetable |           |
//! | `season`    | request (l), season report        | 46, 47             |
//! | `carry`     | request (m), the dearest single carry | 27, 28         |
//! | `vacancy`   | request (n), one vacancy          | 10 to 14, 29, 21   |
#![forbid(unsafe_code)]

pub mod answer;
pub mod breakdown;
pub mod carry;
pub mod clearing;
pub mod converting;
pub mod floor;
pub mod live;
pub mod making;
pub mod models;
pub mod motion;
pub mod order;
pub mod plan;
pub mod planning;
pub mod program;
pub mod record;
pub mod season;
pub mod shortening;
pub mod shortest;
pub mod timetable;
pub mod vacancy;
