//! The words of a command line: files and options.

use crate::Failure;

/// An option: `-o FILE`, `--output FILE`, `--text`.
#[derive(Clone, Copy, Debug)]
pub struct Choice {
    pub long: &'static str,
    pub short: Option<char>,
    /// What its value is called; none of an option without a value.
    pub value: Option<&'static str>,
    /// The values that it may have; empty if it may have any.
    pub values: &'static [&'static str],
    pub about: &'static str,
}

/// The files and options that were given.
#[derive(Clone, Debug, Default)]
pub struct Arguments {
    pub files: Vec<String>,
    chosen: Vec<(&'static str, String)>,
}

impl Arguments {
    /// Reads the words after a subcommand. `--` ends the options; `-` is a file, standard input.
    pub fn read(words: &[String], choices: &[Choice]) -> Result<Arguments, Failure> {
        let mut arguments = Arguments::default();
        let mut rest = words.iter();
        while let Some(word) = rest.next() {
            if word == "--" {
                arguments.files.extend(rest.by_ref().cloned());
            } else if word.starts_with('-') && word != "-" {
                arguments.choose(word, &mut rest, choices)?;
            } else {
                arguments.files.push(word.clone());
            }
        }
        Ok(arguments)
    }

    fn choose<'a>(
        &mut self,
        word: &str,
        rest: &mut impl Iterator<Item = &'a String>,
        choices: &[Choice],
    ) -> Result<(), Failure> {
        let (name, joined) = match word.split_once('=') {
            Some((name, value)) => (name, Some(value.to_string())),
            None => (word, None),
        };
        let is_named = |choice: &&Choice| {
            name.strip_prefix("--") == Some(choice.long)
                || choice.short.is_some_and(|letter| name == format!("-{letter}"))
        };
        let choice = choices
            .iter()
            .find(is_named)
            .ok_or_else(|| Failure::WrongUse(format!("no option {name} here; see --help")))?;
        let value = match (choice.value, joined) {
            (None, None) => String::new(),
            (None, Some(_)) => return Err(Failure::WrongUse(format!("{name} takes no value"))),
            (Some(_), Some(value)) => value,
            (Some(what), None) => rest
                .next()
                .cloned()
                .ok_or_else(|| Failure::WrongUse(format!("{name} takes a value, {what}")))?,
        };
        if !choice.values.is_empty() && !choice.values.contains(&value.as_str()) {
            let values = choice.values.join(", ");
            return Err(Failure::WrongUse(format!("{name} takes one of {values}, not {value}")));
        }
        self.chosen.push((choice.long, value));
        Ok(())
    }

    /// Whether the option was given.
    pub fn has(&self, long: &str) -> bool {
        self.value(long).is_some()
    }

    /// The option's value, the last one if it was given twice.
    pub fn value(&self, long: &str) -> Option<&str> {
        self.chosen.iter().rev().find(|(name, _)| *name == long).map(|(_, value)| value.as_str())
    }

    /// The file of this index, or standard input where fewer were given.
    pub fn file(&self, index: usize) -> &str {
        self.files.get(index).map_or("-", String::as_str)
    }
}
