//! A line of a text, taken apart into words, numbers and signs, each with its place.

use crate::text::TextError;

/// A place in a text: line and column, both from 1.
#[derive(Clone, Copy, PartialEq, Eq, Debug)]
pub struct Place {
    pub line: usize,
    pub column: usize,
}

/// A part of a line: a run of letters, a run of digits, a sign, or a character that no text has outside its comments.
#[derive(Clone, Copy, PartialEq, Eq, Debug)]
pub struct Token<'a> {
    pub characters: &'a str,
    pub place: Place,
}

/// The rest of a line, of which tokens are taken from the front.
pub struct Line<'a> {
    rest: &'a str,
    place: Place,
}

const BLANKS: [char; 2] = [' ', '\t'];

impl<'a> Line<'a> {
    /// One line, which may end with a carriage return. A comment is left out.
    pub fn new(characters: &'a str, line: usize) -> Line<'a> {
        let characters = characters.strip_suffix('\r').unwrap_or(characters);
        let written = characters.split('#').next().unwrap_or("").trim_end_matches(BLANKS);
        let mut new = Line { rest: written, place: Place { line, column: 1 } };
        new.pass_blanks();
        new
    }

    /// The next token; none at the end of the line.
    pub fn token(&mut self) -> Option<Token<'a>> {
        let length = token_length(self.rest)?;
        let token = Token { characters: &self.rest[..length], place: self.place };
        self.pass(length);
        self.pass_blanks();
        Some(token)
    }

    /// A number from 0 to the highest, which is what is told to be expected.
    pub fn number_up_to(&mut self, highest: usize, what: &str) -> Result<(usize, Place), TextError> {
        let token = self.expect(what)?;
        // digits alone: a sign is a token of its own
        let value = token.characters.parse().ok().filter(|&value: &usize| value <= highest);
        value.map(|value| (value, token.place)).ok_or_else(|| found(token, what))
    }

    /// This word or sign.
    pub fn word(&mut self, word: &str, what: &str) -> Result<(), TextError> {
        match self.expect(what)? {
            token if token.characters == word => Ok(()),
            token => Err(found(token, what)),
        }
    }

    pub fn is_at_end(&self) -> bool {
        self.rest.is_empty()
    }

    /// Sees that nothing is left of the line.
    pub fn end(&mut self) -> Result<(), TextError> {
        self.token().map_or(Ok(()), |token| Err(found(token, "the end of the line")))
    }

    fn expect(&mut self, what: &str) -> Result<Token<'a>, TextError> {
        let place = self.place;
        self.token().ok_or_else(|| TextError::at(place, format!("{what}; found the end of the line")))
    }

    fn pass(&mut self, length: usize) {
        self.place.column += self.rest[..length].chars().count();
        self.rest = &self.rest[length..];
    }

    fn pass_blanks(&mut self) {
        self.pass(self.rest.len() - self.rest.trim_start_matches(BLANKS).len());
    }
}

/// What was expected, and the token that was found in its place.
pub fn found(token: Token, what: &str) -> TextError {
    TextError::at(token.place, format!("{what}; found `{}`", token.characters.escape_debug()))
}

/// How many bytes the token takes that the characters begin with.
fn token_length(characters: &str) -> Option<usize> {
    let first = characters.chars().next()?;
    let run = |belongs: fn(&char) -> bool| characters.chars().take_while(belongs).count();
    Some(match first {
        _ if first.is_ascii_digit() => run(char::is_ascii_digit),
        _ if first.is_ascii_alphabetic() => run(char::is_ascii_alphabetic),
        '-' if characters.starts_with("->") => 2,
        _ => first.len_utf8(),
    })
}
