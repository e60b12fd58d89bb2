//! What is read: files and standard input, and orders in each of their three forms.

use crate::arguments::Arguments;
use crate::calls;
use crate::library::{self, Answer, Refusal};
use crate::text::{self, Lines, TextError, Written};
use crate::words::{self, Given, Named};
use crate::Failure;
use std::fs;
use std::io::{self, Read};

/// The bytes of a file; `-` is standard input.
pub fn bytes(name: &str) -> Result<Vec<u8>, Failure> {
    let failed = |error| Failure::WrongUse(format!("cannot read {}: {error}", shown_name(name)));
    if name != "-" {
        return fs::read(name).map_err(failed);
    }
    let mut bytes = Vec::new();
    io::stdin().lock().read_to_end(&mut bytes).map_err(failed)?;
    Ok(bytes)
}

/// How a file is called where it is spoken of.
pub fn shown_name(name: &str) -> &str {
    if name == "-" {
        "standard input"
    } else {
        name
    }
}

/// An order that was read. Whether it is well formed the next call of the library says.
#[derive(Clone, Debug)]
pub struct OrderInput {
    pub name: String,
    /// The full order's record.
    pub record: Vec<u8>,
    /// The short order's record, where it came as one.
    pub short: Option<Vec<u8>>,
    /// Where a text has its edges and racks.
    lines: Lines,
}

/// The three forms of an order.
#[derive(Clone, Copy, PartialEq, Eq, Debug)]
pub enum Form {
    Text,
    Record,
    Short,
}

/// The order of the file of this index, in the form that `--from` says, or else in the one that it shows.
pub fn order(arguments: &Arguments, index: usize) -> Result<OrderInput, Failure> {
    order_of_file(arguments.file(index), arguments)
}

pub fn order_of_file(name: &str, arguments: &Arguments) -> Result<OrderInput, Failure> {
    let bytes = bytes(name)?;
    let form = match arguments.value("from") {
        Some("text") => Form::Text,
        Some("record") => Form::Record,
        Some("short") => Form::Short,
        _ => form(&bytes),
    };
    order_in(form, name, bytes)
}

/// The order that the bytes hold in this form.
pub fn order_in(form: Form, name: &str, bytes: Vec<u8>) -> Result<OrderInput, Failure> {
    let name = shown_name(name).to_string();
    let lines = Lines::default();
    match form {
        Form::Record => Ok(OrderInput { name, record: bytes, short: None, lines }),
        Form::Short => OrderInput { name, record: Vec::new(), short: Some(bytes), lines }.expanded(),
        Form::Text => match read_text(&bytes) {
            Ok((Written::Full(order), lines)) => {
                Ok(OrderInput { name, record: order.record(), short: None, lines })
            }
            Ok((Written::Short(short), lines)) => {
                OrderInput { name, record: Vec::new(), short: Some(short.record()), lines }.expanded()
            }
            Err(error) => Err(Failure::Refused(format!(
                "{name}:{}:{}: expected {}",
                error.line, error.column, error.expected
            ))),
        },
    }
}

fn read_text(bytes: &[u8]) -> Result<(Written, Lines), TextError> {
    match std::str::from_utf8(bytes) {
        Ok(text) => text::read(text),
        Err(error) => {
            let before = String::from_utf8_lossy(&bytes[..error.valid_up_to()]);
            let last = before.rsplit('\n').next().unwrap_or("");
            let line = before.matches('\n').count() + 1;
            Err(TextError { line, column: last.chars().count() + 1, expected: "text in UTF-8".into() })
        }
    }
}

/// The form that an order's bytes show. No accepted record is taken for a text, and none for a record of another
/// form: docs/TEXT.md has the reasons.
pub fn form(bytes: &[u8]) -> Form {
    if begins_as_text(bytes) {
        return Form::Text;
    }
    if library::order_check(bytes).is_ok() {
        return Form::Record;
    }
    // refused as a full order: only the words of the refusal are left to choose
    match bytes.first() {
        Some(1..=5) => Form::Short,
        Some(_) if has_no_control_byte(bytes) && std::str::from_utf8(bytes).is_ok() => Form::Text,
        _ => Form::Record,
    }
}

/// Whether the first thing that is not blank is a comment or the word of a floor, and no control byte is there.
pub fn begins_as_text(bytes: &[u8]) -> bool {
    let bytes = bytes.strip_prefix("\u{FEFF}".as_bytes()).unwrap_or(bytes);
    let blank = |byte: &u8| matches!(byte, b' ' | b'\t' | b'\r' | b'\n');
    let first = bytes.iter().position(|byte| !blank(byte)).unwrap_or(bytes.len());
    let begins = |word: &str| bytes[first..].starts_with(word.as_bytes());
    ["#", "floor", "model", "positions"].iter().any(|word| begins(word)) && has_no_control_byte(bytes)
}

fn has_no_control_byte(bytes: &[u8]) -> bool {
    bytes.iter().all(|byte| matches!(byte, b'\t' | b'\r' | b'\n' | 0x20..=0x7E | 0x80..))
}

impl OrderInput {
    /// With the short order written out, by the library.
    fn expanded(mut self) -> Result<OrderInput, Failure> {
        let short = self.short.clone().unwrap_or_default();
        let given = Given { short_order: Some(&short), ..Given::default() };
        self.record = self.accepted(calls::expanded(&short), given)?;
        Ok(self)
    }

    /// The answer, or the words of the refusal of a call that was given this order and these records.
    pub fn accepted<T>(&self, answer: Answer<T>, given: Given) -> Result<T, Failure> {
        answer.map_err(|refusal| Failure::Refused(format!("refused {}", self.words(refusal, given))))
    }

    /// The words of a refusal, with the line of the text that they speak of.
    pub fn words(&self, refusal: Refusal, given: Given) -> String {
        let given = Given { order: Some(&self.record), ..given };
        let words = words::words(refusal, &given);
        let line = match words::named(refusal.number, &given) {
            Some(Named::Edge(index)) => self.lines.edges.get(index),
            Some(Named::Rack(rack)) => self.lines.racks.get(rack - 1),
            None => None,
        };
        match line {
            Some(line) => format!("{words} ({}, line {line})", self.name),
            None => words,
        }
    }
}
