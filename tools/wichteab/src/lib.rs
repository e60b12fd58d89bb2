//! The command-line tool: it reads and writes records and texts, and has the proved library judge and make them.
//!
//! | module      | what it has                                                             |
//! |-------------|-------------------------------------------------------------------------|
//! | `library`   | the functions of the C interface; the one module with unsafe code        |
//! | `calls`     | the same with buffers of the right length                                |
//! | `bits`      | fields of records                                                        |
//! | `records`   | orders, plans and timetables as values                                   |
//! | `tokens`    | a line of a text taken apart                                             |
//! | `text`      | the text form of orders                                                  |
//! | `replay`    | racks as legal moves take them                                           |
//! | `words`     | what a refusal means in the records that were refused                    |
//! | `show`      | plans, timetables and seasons as text                                    |
//! | `input`     | files and standard input; what kind of order or record they hold         |
//! | `output`    | files and standard output                                                |
//! | `progress`  | how far long work has come                                               |
//! | `arguments` | the words of the command line                                            |
//! | `help`      | what `--help` prints                                                     |
//! | `commands`  | the subcommands                                                          |
//! | `layout`    | where positions are drawn                                                |
//! | `picture`   | an order as a picture                                                    |
//! | `player`    | a timetable as a page that plays it                                      |
#![deny(unsafe_code)]

pub mod arguments;
mod bits;
pub mod calls;
pub mod commands;
pub mod help;
pub mod input;
pub mod layout;
#[allow(unsafe_code)]
pub mod library;
pub mod output;
pub mod picture;
pub mod player;
pub mod progress;
pub mod records;
pub mod replay;
pub mod show;
pub mod text;
mod tokens;
pub mod words;

/// Why a subcommand did not end well. It decides the exit status.
#[derive(Clone, PartialEq, Eq, Debug)]
pub enum Failure {
    /// The input was refused, in these words: status 1.
    Refused(String),
    /// The tool was used wrongly, or a file could not be read or written: status 2.
    WrongUse(String),
}
