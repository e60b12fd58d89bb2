//! The player's page in a real browser, and ten timetables to play.
//!
//! | module     | what it has                                                            |
//! |------------|------------------------------------------------------------------------|
//! | `cases`    | the ten timetables, made by the proved planner and timetable maker     |
//! | `replay`   | what the page has to show after each step, by the second implementation |
//! | `json`     | a reader of JSON                                                       |
//! | `markup`   | a reader of XML, as strict as the picture has to be                    |
//! | `driver`   | chromedriver, spoken to by WebDriver's protocol on the loopback        |
//!
//! The program opens each page and compares (`tests/browser/run`). The tests of this crate need no browser.

pub mod cases;
pub mod driver;
pub mod json;
pub mod markup;
pub mod replay;
