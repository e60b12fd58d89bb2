//! `wichteab`, the command-line tool. Everything is in the library beside it.
#![forbid(unsafe_code)]

use std::process::ExitCode;
use wichteab_tool::{commands, Failure};

fn main() -> ExitCode {
    let words: Vec<String> =
        std::env::args_os().skip(1).map(|word| word.to_string_lossy().into_owned()).collect();
    match commands::run(&words) {
        Ok(()) => ExitCode::SUCCESS,
        Err(Failure::Refused(words)) => {
            eprintln!("{words}");
            ExitCode::from(1)
        }
        Err(Failure::WrongUse(words)) => {
            eprintln!("wichteab: {words}");
            ExitCode::from(2)
        }
    }
}
