//! What `--help` prints.

use crate::arguments::Choice;
use crate::commands::{Command, COMMANDS};

/// The list of subcommands.
pub fn overview() -> String {
    let mut text = String::from("usage: wichteab SUBCOMMAND [OPTIONS] [FILES]\n\n");
    for command in &COMMANDS {
        text += &format!("  {:<12} {}\n", command.name, command.summary);
    }
    text + "\n`wichteab SUBCOMMAND --help` says more. A file `-`, or no file, is standard input.\n\
            Exit status: 0 accepted, 1 refused, 2 wrong use.\n"
}

/// The line that shows how a subcommand is called.
pub fn usage(command: &Command) -> String {
    format!("usage: wichteab {} [OPTIONS] {}", command.name, command.files)
}

/// The help of one subcommand.
pub fn of(command: &Command) -> String {
    let options: String = command.choices.iter().map(option).collect();
    format!(
        "{}\n\n{}\n\n{options}  -h, --help             print this\n\nExample:\n\n  {}\n",
        usage(command),
        wrapped(command.about),
        command.example
    )
}

fn option(choice: &Choice) -> String {
    let short = choice.short.map_or("    ".into(), |letter| format!("-{letter}, "));
    let value = choice.value.map_or(String::new(), |value| format!(" {value}"));
    format!("  {:<22} {}\n", format!("{short}--{}{value}", choice.long), choice.about)
}

/// The words in lines that fit a terminal.
fn wrapped(text: &str) -> String {
    let mut lines = vec![String::new()];
    for word in text.split_whitespace() {
        let last = lines.len() - 1;
        match lines[last].len() {
            0 => lines[last] = word.into(),
            length if length + word.len() < 79 => lines[last] += &format!(" {word}"),
            _ => lines.push(word.into()),
        }
    }
    lines.join("\n")
}
