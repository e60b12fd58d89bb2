//! Where results go: to the file that `-o` names, or to standard output.

use crate::arguments::Arguments;
use crate::Failure;
use std::fs;
use std::io::{self, ErrorKind, IsTerminal, Write};

/// Writes a record, or the text in its place where `--text` asks for it. Bytes are never spilt on a terminal: there
/// the text is printed too.
pub fn record(arguments: &Arguments, bytes: &[u8], text: impl FnOnce() -> String) -> Result<(), Failure> {
    let on_terminal = arguments.value("output").is_none() && io::stdout().is_terminal();
    match arguments.has("text") || on_terminal {
        true => bytes_out(arguments, text().as_bytes()),
        false => bytes_out(arguments, bytes),
    }
}

/// Writes a text that was asked for.
pub fn text(arguments: &Arguments, text: &str) -> Result<(), Failure> {
    bytes_out(arguments, text.as_bytes())
}

/// Prints a text on standard output, whatever `-o` names.
pub fn print(text: &str) -> Result<(), Failure> {
    standard_output(text.as_bytes())
}

/// Writes bytes to a file.
pub fn file(name: &str, bytes: &[u8]) -> Result<(), Failure> {
    fs::write(name, bytes).map_err(|error| Failure::WrongUse(format!("cannot write {name}: {error}")))
}

fn bytes_out(arguments: &Arguments, bytes: &[u8]) -> Result<(), Failure> {
    match arguments.value("output") {
        Some("-") | None => standard_output(bytes),
        Some(name) => file(name, bytes),
    }
}

fn standard_output(bytes: &[u8]) -> Result<(), Failure> {
    let mut out = io::stdout().lock();
    match out.write_all(bytes).and_then(|()| out.flush()) {
        // who reads has seen enough
        Err(error) if error.kind() == ErrorKind::BrokenPipe => Ok(()),
        Err(error) => Err(Failure::WrongUse(format!("cannot write standard output: {error}"))),
        Ok(()) => Ok(()),
    }
}
