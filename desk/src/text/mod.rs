//! The readable forms: model text, tape text, and the names in them.

pub mod model_parse;
pub mod model_print;
pub mod names;
pub mod tape_parse;
pub mod tape_print;

#[cfg(test)]
mod tests;

use std::fmt;

/// What is wrong with a text, and in which line.
#[derive(Clone, Debug, PartialEq, Eq)]
pub struct TextError {
    pub line: usize,
    pub found: String,
    pub expected: String,
}

impl fmt::Display for TextError {
    fn fmt(&self, f: &mut fmt::Formatter<'_>) -> fmt::Result {
        let TextError {
            line,
            found,
            expected,
        } = self;
        write!(f, "{line}: found {found}, expected {expected}")
    }
}

/// A line of a text: its number and its words.
#[derive(Clone, Debug)]
pub struct Words<'t> {
    pub line: usize,
    pub words: Vec<&'t str>,
}

impl<'t> Words<'t> {
    /// The error that this line holds `found` where something else was expected.
    pub fn wrong<T>(&self, found: &str, expected: &str) -> Result<T, TextError> {
        error(self.line, quoted(found), expected)
    }

    /// The error that the line as a whole has the wrong form.
    pub fn wrong_line<T>(&self, expected: &str) -> Result<T, TextError> {
        self.wrong(&self.words.join(" "), expected)
    }
}

/// An error in a line.
pub fn error<T>(line: usize, found: String, expected: &str) -> Result<T, TextError> {
    Err(TextError {
        line,
        found,
        expected: expected.to_string(),
    })
}

/// A word as it is shown in an error.
pub fn quoted(word: &str) -> String {
    if word.is_empty() {
        "nothing".to_string()
    } else {
        format!("'{word}'")
    }
}

/// The lines of a text that hold words; comments and commas are dropped, an arrow is a word.
pub fn lines_of(text: &str) -> Vec<Words<'_>> {
    let text = text.strip_prefix('\u{feff}').unwrap_or(text);
    let mut lines = Vec::new();
    for (i, line) in text.lines().enumerate() {
        let said = line.split('#').next().unwrap_or("");
        let words = words_of(said);
        if !words.is_empty() {
            lines.push(Words { line: i + 1, words });
        }
    }
    lines
}

/// The words of a line without its comment.
fn words_of(said: &str) -> Vec<&str> {
    let mut words = Vec::new();
    for part in said.split(|c: char| c.is_whitespace() || c == ',') {
        let mut rest = part;
        while let Some(at) = rest.find("->") {
            words.push(&rest[..at]);
            words.push("->");
            rest = &rest[at + 2..];
        }
        words.push(rest);
    }
    words.retain(|w| !w.is_empty());
    words
}

/// A number, decimal or with 0x.
pub fn number(word: &str) -> Option<u64> {
    match word.strip_prefix("0x") {
        Some(hex) if !hex.starts_with('+') => u64::from_str_radix(hex, 16).ok(),
        Some(_) => None,
        None if word.starts_with('+') => None,
        None => word.parse().ok(),
    }
}

/// Whether the word can be a name: a letter first, then letters, digits, '_', '-' or '.'.
pub fn is_name(word: &str) -> bool {
    let inner = |c: char| c.is_alphanumeric() || matches!(c, '_' | '-' | '.');
    word.starts_with(|c: char| c.is_alphabetic() || c == '_') && word.chars().all(inner)
}

/// Whether the bytes are text: not empty, UTF-8, and no control characters but tabs and line ends.
pub fn is_text(bytes: &[u8]) -> bool {
    let plain = |c: char| !c.is_control() || matches!(c, '\t' | '\n' | '\r');
    match std::str::from_utf8(bytes) {
        Ok(text) => !text.is_empty() && text.chars().all(plain),
        Err(_) => false,
    }
}
