//! A line while it is written: words that are parted by a space.

use super::words::is_bare;
use crate::ids::Id;
use crate::name::Name;
use std::fmt::{Display, Write};

/// A line while it is written, with the lines before it.
#[derive(Clone, Default, Debug)]
pub struct Line {
    text: String,
    /// Where the line begins.
    start: usize,
}

impl Line {
    /// An empty line.
    pub const fn new() -> Line {
        Line {
            text: String::new(),
            start: 0,
        }
    }

    /// A line that goes on behind this word.
    pub fn behind(word: &str) -> Line {
        // Most lines of one question fit.
        let mut text = String::with_capacity(word.len() + 40);
        text.push_str(word);
        Line { text, start: 0 }
    }

    /// Ends the line, and begins the next one.
    pub fn next_line(&mut self) {
        self.text.push('\n');
        self.start = self.text.len();
    }

    /// Takes the lines of a text, each with its end, before the next line.
    pub(crate) fn lines(&mut self, text: &str) {
        self.text.push_str(text);
        self.start = self.text.len();
    }

    /// What was written.
    pub fn as_str(&self) -> &str {
        &self.text
    }

    /// What was written.
    pub fn into_string(self) -> String {
        self.text
    }

    /// Begins a word: with a space, where the line has something before it.
    pub fn begin(&mut self) {
        if self.text.len() > self.start {
            self.text.push(' ');
        }
    }

    /// A word.
    pub fn word(&mut self, word: impl Display) {
        self.begin();
        self.join(word);
    }

    /// A word that is a text.
    pub fn keyword(&mut self, word: &str) {
        self.begin();
        self.text.push_str(word);
    }

    /// A text, after the last word without a space.
    pub fn join_str(&mut self, part: &str) {
        self.text.push_str(part);
    }

    /// A number, after the last word without a space. Most of what lines have is numbers, and formatting takes twice as long.
    fn join_number(&mut self, number: u32) {
        let (mut digits, mut rest, mut at) = ([b'0'; 10], number, 10);
        loop {
            at -= 1;
            digits[at] += u8::try_from(rest % 10).unwrap_or(0);
            rest /= 10;
            if rest == 0 {
                break;
            }
        }
        self.text
            .extend(digits[at..].iter().copied().map(char::from));
    }

    /// What comes behind the last word without a space.
    pub fn join(&mut self, part: impl Display) {
        // A String takes all that is written to it.
        let _ = write!(self.text, "{part}");
    }

    /// A word, where this is so.
    pub fn flag(&mut self, is_so: bool, word: &str) {
        if is_so {
            self.keyword(word);
        }
    }

    /// The number of a node, as a word.
    pub fn id<I: Id>(&mut self, id: I) {
        self.begin();
        self.join_number(id.into_raw());
    }

    /// The number of a node, behind the last word without a space.
    pub fn join_id<I: Id>(&mut self, id: I) {
        self.join_number(id.into_raw());
    }

    /// The number of a node or `-`, behind the last word without a space.
    pub fn join_opt_id<I: Id>(&mut self, id: Option<I>) {
        match id {
            Some(id) => self.join_id(id),
            None => self.text.push('-'),
        }
    }

    /// The number of a node, or `-`, as a word.
    pub fn opt_id<I: Id>(&mut self, id: Option<I>) {
        self.begin();
        self.join_opt_id(id);
    }

    /// A word that begins with this and ends with the number of a node, where there is one.
    pub fn prefixed_id<I: Id>(&mut self, start: &str, id: Option<I>) {
        if let Some(id) = id {
            self.keyword(start);
            self.join_id(id);
        }
    }

    /// Numbers of nodes joined by `,`, or `-`, as a word.
    pub fn ids<I: Id>(&mut self, ids: &[I]) {
        self.begin();
        self.joined_or_none(",", ids, |line, id| line.join_id(*id));
    }

    /// Each of these, joined by this.
    pub fn joined<T>(&mut self, between: &str, items: &[T], write: impl Fn(&mut Line, &T)) {
        for (at, item) in items.iter().enumerate() {
            if at > 0 {
                self.text.push_str(between);
            }
            write(self, item);
        }
    }

    /// The same, or `-` for none.
    pub fn joined_or_none<T>(&mut self, between: &str, items: &[T], write: impl Fn(&mut Line, &T)) {
        if items.is_empty() {
            self.text.push('-');
        }
        self.joined(between, items, write);
    }

    /// A name, bare or in quotes, behind the last word without a space.
    pub fn join_name(&mut self, name: &Name) {
        if is_bare(name.as_str()) {
            self.text.push_str(name.as_str());
        } else {
            self.join_quoted(name.as_str());
        }
    }

    /// A name, as a word.
    pub fn name(&mut self, name: &Name) {
        self.begin();
        self.join_name(name);
    }

    /// Names joined by `,`, or `-`, behind the last word without a space.
    pub fn join_names(&mut self, names: &[Name]) {
        self.joined_or_none(",", names, Line::join_name);
    }

    /// A text in quotes, behind the last word without a space.
    pub fn join_quoted(&mut self, text: &str) {
        self.text.push('"');
        for c in text.chars() {
            self.character(c);
        }
        self.text.push('"');
    }

    /// A text in quotes, as a word.
    pub fn quoted(&mut self, text: &str) {
        self.begin();
        self.join_quoted(text);
    }

    /// Bytes in quotes, as a word.
    pub fn quoted_bytes(&mut self, bytes: &[u8]) {
        self.begin();
        self.text.push('"');
        for byte in bytes {
            match byte {
                0 | b'\t' | b'\n' | b'\r' | b' '..=b'~' => self.character(char::from(*byte)),
                _ => self.join(format_args!("\\x{byte:02x}")),
            }
        }
        self.text.push('"');
    }

    fn character(&mut self, c: char) {
        match c {
            '\n' => self.text.push_str("\\n"),
            '\r' => self.text.push_str("\\r"),
            '\t' => self.text.push_str("\\t"),
            '\0' => self.text.push_str("\\0"),
            '\\' | '"' => {
                self.text.push('\\');
                self.text.push(c);
            }
            '\u{1}'..='\u{1f}' | '\u{7f}' => {
                self.join(format_args!("\\u{{{:02x}}}", u32::from(c)));
            }
            _ => self.text.push(c),
        }
    }
}

#[cfg(test)]
mod tests {
    use super::Line;
    use crate::ids::ExprId;

    #[test]
    fn numbers_are_written_in_decimal() {
        for number in [
            0,
            1,
            9,
            10,
            99,
            100,
            254,
            255,
            256,
            260,
            999,
            65_535,
            65_536,
            1_234_567_890,
            u32::MAX,
        ] {
            let mut line = Line::new();
            line.join_id(ExprId::from_raw(number));
            assert_eq!(line.as_str(), number.to_string());
        }
    }
}
