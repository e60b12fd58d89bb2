//! The proved library, called through its C interface, against the second implementation, on random
//! and damaged records. Every case comes from a fixed seed, so a difference shows up again.
//!
//! | module       | what it has                                                        |
//! |--------------|--------------------------------------------------------------------|
//! | `proved`     | the exported functions                                             |
//! | `packed`     | an answer of the second implementation as the exports pack it      |
//! | `tally`      | how many cases were compared, and how often each number was met    |
//! | `random`     | the generator of random numbers                                    |
//! | `write`      | records written from their fields, sound or not                    |
//! | `kinds`      | an enum together with the list of all its kinds                    |
//! | `floors`     | floors of every shape                                              |
//! | `rings`      | ring floors, and orders on them that can be planned                |
//! | `breakdowns` | the proved breakdown of a floor                                    |
//! | `orders`     | orders on them, and damage                                         |
//! | `short_orders` | short orders, and damage                                         |
//! | `racks`      | an arrangement, random moves and random steps on it                |
//! | `cases`      | an order and a record for it, sound or damaged                     |
//! | `plans`      | plans in both editions, and damage                                 |
//! | `readers`    | every function that reads a plan, on one that is refused           |
//! | `cancelling` | plans made to cancel                                               |
//! | `timetables` | timetables, and damage                                             |
//! | `live`       | pairs of an order and a timetable for one live floor               |
//! | `trains`     | steps and plans with trains of a given length                      |
//! | `seasons`    | order and timetable pairs one after another, and damage            |
//! | `programs`   | the programs, run on an input                                      |

#[macro_use]
mod kinds;

pub mod breakdowns;
pub mod cancelling;
pub mod cases;
pub mod floors;
pub mod live;
pub mod orders;
pub mod packed;
pub mod plans;
pub mod programs;
pub mod proved;
pub mod racks;
pub mod random;
pub mod readers;
pub mod rings;
pub mod seasons;
pub mod short_orders;
pub mod tally;
pub mod timetables;
pub mod trains;
pub mod write;
