//! A small reader of JSON.

#[derive(Clone, Debug, PartialEq)]
pub enum Json {
    Null,
    Truth(bool),
    Number(f64),
    Text(String),
    List(Vec<Json>),
    Fields(Vec<(String, Json)>),
}

impl Json {
    /// The field of this name, null where there is none.
    pub fn field(&self, name: &str) -> &Json {
        match self {
            Json::Fields(fields) => {
                fields.iter().find(|(known, _)| known == name).map_or(&Json::Null, |(_, value)| value)
            }
            _ => &Json::Null,
        }
    }

    pub fn list(&self) -> &[Json] {
        match self {
            Json::List(items) => items,
            _ => &[],
        }
    }

    pub fn text(&self) -> &str {
        match self {
            Json::Text(text) => text,
            _ => "",
        }
    }

    /// A number that is whole and not negative, if it is one.
    pub fn whole(&self) -> Option<usize> {
        match self {
            Json::Number(number) if *number >= 0.0 && number.fract() == 0.0 => Some(*number as usize),
            _ => None,
        }
    }
}

/// The text as JSON writes it, with its quotes.
pub fn quoted(text: &str) -> String {
    let mut quoted = String::from("\"");
    for letter in text.chars() {
        match letter {
            '"' | '\\' => quoted.extend(['\\', letter]),
            '\n' => quoted.push_str("\\n"),
            _ if u32::from(letter) < 32 => quoted.push_str(&format!("\\u{:04x}", u32::from(letter))),
            _ => quoted.push(letter),
        }
    }
    quoted + "\""
}

/// The value that the text is, with nothing behind it.
pub fn read(text: &str) -> Result<Json, String> {
    let mut reader = Reader { rest: text };
    let value = reader.value(0)?;
    reader.skip();
    if reader.rest.is_empty() {
        Ok(value)
    } else {
        Err(reader.fault("the end"))
    }
}

/// Values inside values, at most.
const DEPTH: usize = 64;

struct Reader<'a> {
    rest: &'a str,
}

impl Reader<'_> {
    fn skip(&mut self) {
        self.rest = self.rest.trim_start_matches([' ', '\t', '\r', '\n']);
    }

    fn fault(&self, wanted: &str) -> String {
        format!("{wanted} expected before '{}'", self.rest.chars().take(20).collect::<String>())
    }

    /// Whether the sign comes next; it is passed.
    fn passes(&mut self, sign: &str) -> bool {
        self.skip();
        let behind = self.rest.strip_prefix(sign);
        self.rest = behind.unwrap_or(self.rest);
        behind.is_some()
    }

    fn pass(&mut self, sign: &str) -> Result<(), String> {
        if self.passes(sign) {
            Ok(())
        } else {
            Err(self.fault(sign))
        }
    }

    fn value(&mut self, depth: usize) -> Result<Json, String> {
        if depth > DEPTH {
            return Err("too deep".to_string());
        }
        for (word, value) in
            [("null", Json::Null), ("true", Json::Truth(true)), ("false", Json::Truth(false))]
        {
            if self.passes(word) {
                return Ok(value);
            }
        }
        match self.rest.chars().next() {
            Some('"') => Ok(Json::Text(self.string()?)),
            Some('[') => self.items(depth),
            Some('{') => self.fields(depth),
            _ => self.number(),
        }
    }

    fn items(&mut self, depth: usize) -> Result<Json, String> {
        self.pass("[")?;
        let mut items = Vec::new();
        if self.passes("]") {
            return Ok(Json::List(items));
        }
        loop {
            items.push(self.value(depth + 1)?);
            if self.passes("]") {
                return Ok(Json::List(items));
            }
            self.pass(",")?;
        }
    }

    fn fields(&mut self, depth: usize) -> Result<Json, String> {
        self.pass("{")?;
        let mut fields = Vec::new();
        if self.passes("}") {
            return Ok(Json::Fields(fields));
        }
        loop {
            self.skip();
            let name = self.string()?;
            self.pass(":")?;
            fields.push((name, self.value(depth + 1)?));
            if self.passes("}") {
                return Ok(Json::Fields(fields));
            }
            self.pass(",")?;
        }
    }

    fn number(&mut self) -> Result<Json, String> {
        let end = self.rest.find(|sign: char| !"+-.eE0123456789".contains(sign)).unwrap_or(self.rest.len());
        let number = self.rest[..end].parse().map_err(|_| self.fault("a value"))?;
        self.rest = &self.rest[end..];
        Ok(Json::Number(number))
    }

    fn string(&mut self) -> Result<String, String> {
        self.pass("\"")?;
        let mut units: Vec<u16> = Vec::new(); // \u names halves of a pair one by one
        loop {
            let letter = self.letter()?;
            match letter {
                '"' => return String::from_utf16(&units).map_err(|_| "half a pair".to_string()),
                '\\' => units.push(self.escape()?),
                _ => units.extend_from_slice(letter.encode_utf16(&mut [0; 2])),
            }
        }
    }

    fn letter(&mut self) -> Result<char, String> {
        let mut letters = self.rest.chars();
        let letter = letters.next().ok_or("a string does not end")?;
        self.rest = letters.as_str();
        Ok(letter)
    }

    fn escape(&mut self) -> Result<u16, String> {
        Ok(match self.letter()? {
            'n' => 10,
            't' => 9,
            'r' => 13,
            'b' => 8,
            'f' => 12,
            'u' => {
                let digits = self.rest.get(..4).ok_or("four digits expected")?;
                let unit = u16::from_str_radix(digits, 16).map_err(|_| self.fault("four digits"))?;
                self.rest = &self.rest[4..];
                unit
            }
            other if "\"\\/".contains(other) => other as u16,
            _ => return Err(self.fault("an escape")),
        })
    }
}

#[cfg(test)]
mod tests {
    use super::*;

    #[test]
    fn values_are_read() {
        let read = |text: &str| read(text).expect("it is JSON");
        assert_eq!(read(" [1, -2.5e1,null,true,false,[],{}] ").list().len(), 7);
        assert_eq!(read(r#"{"a":{"b":[3]}}"#).field("a").field("b").list()[0].whole(), Some(3));
        assert_eq!(read(r#""\u00e4\ud83d\ude00\n\"\\\/""#).text(), "ä😀\n\"\\/");
        assert_eq!(read(&quoted("a\"b\\c\n\u{1}ä")).text(), "a\"b\\c\n\u{1}ä");
    }

    #[test]
    fn other_texts_are_refused() {
        for text in
            ["", "[", "[1,]", "{\"a\"}", "{a:1}", "\"", "\"\\x\"", "\"\\ud83d\"", "1 2", "nul", "--", "[1}"]
        {
            assert!(read(text).is_err(), "{text}");
        }
        assert!(read(&"[".repeat(1000)).is_err());
    }
}
