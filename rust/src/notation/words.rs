//! What is left of a line: words and their parts, taken one after the other.

use crate::ids::Id;
use crate::name::Name;

/// What is left of a line.
#[derive(Clone, Copy, Debug)]
pub struct Words<'a> {
    rest: &'a str,
    /// Whether nothing was taken yet: the first word has no space before it.
    is_first: bool,
}

/// Whether a bare name may begin with this.
fn begins_name(byte: u8) -> bool {
    byte.is_ascii_alphabetic() || byte == b'_' || byte == b'\''
}

fn is_of_name(byte: u8) -> bool {
    byte.is_ascii_alphanumeric() || byte == b'_'
}

fn is_of_keyword(byte: u8) -> bool {
    is_of_name(byte) || byte == b'-'
}

/// Whether a text is a name that stands without quotes.
pub(super) fn is_bare(text: &str) -> bool {
    let mut bytes = text.bytes();
    bytes.next().is_some_and(begins_name) && bytes.all(is_of_name)
}

impl<'a> Words<'a> {
    /// The words of a line.
    pub fn new(line: &'a str) -> Words<'a> {
        Words {
            rest: line,
            is_first: true,
        }
    }

    /// What is left.
    pub fn rest(&self) -> &'a str {
        self.rest
    }

    /// Whether nothing is left.
    pub fn is_end(&self) -> bool {
        self.rest.is_empty()
    }

    /// Reads something that may not be there: where it isn't, nothing is taken.
    pub fn attempt<T>(&mut self, read: impl FnOnce(&mut Words<'a>) -> Option<T>) -> Option<T> {
        let mut ahead = *self;
        let value = read(&mut ahead)?;
        *self = ahead;
        Some(value)
    }

    /// Takes as many bytes as this, which end at a character's end.
    fn take(&mut self, count: usize) -> &'a str {
        let (taken, rest) = self.rest.split_at(count);
        self.rest = rest;
        self.is_first = false;
        taken
    }

    /// Takes the ASCII bytes of this kind that come next.
    fn part(&mut self, is_of: impl Fn(u8) -> bool) -> &'a str {
        let count = self.rest.bytes().position(|byte| !is_of(byte));
        self.take(count.unwrap_or(self.rest.len()))
    }

    /// Whether the line goes on with this.
    pub fn is_at(&self, text: &str) -> bool {
        self.rest.starts_with(text)
    }

    /// Whether the line goes on with this, which is then taken.
    pub fn eat(&mut self, text: &str) -> bool {
        let is_there = self.is_at(text);
        if is_there {
            self.take(text.len());
        }
        is_there
    }

    /// This.
    pub fn expect(&mut self, text: &str) -> Option<()> {
        self.eat(text).then_some(())
    }

    /// What begins the next word: a space, but for the first word of a line.
    pub fn begin(&mut self) -> Option<()> {
        if self.is_first {
            self.is_first = false;
            return Some(());
        }
        self.expect(" ")
    }

    /// The next word: all up to the next space, or to the line's end.
    pub fn next_word(&mut self) -> Option<&'a str> {
        self.begin()?;
        Some(self.part(|byte| byte != b' '))
    }

    /// The letters, digits, `-` and `_` of the next word.
    pub fn next_keyword(&mut self) -> Option<&'a str> {
        self.begin()?;
        Some(self.keyword())
    }

    /// The letters, digits, `-` and `_` that come next.
    pub fn keyword(&mut self) -> &'a str {
        self.part(is_of_keyword)
    }

    /// The digits and `.` that come next.
    pub fn decimal(&mut self) -> &'a str {
        self.part(|byte| byte.is_ascii_digit() || byte == b'.')
    }

    /// Whether the next word begins with this, which is then taken.
    pub fn prefix(&mut self, start: &str) -> bool {
        self.attempt(|words| {
            words.begin()?;
            words.expect(start)
        })
        .is_some()
    }

    /// Whether the next word is this one, which is then taken.
    pub fn flag(&mut self, word: &str) -> bool {
        self.attempt(|words| {
            words.begin()?;
            words.expect(word)?;
            words.is_word_end().then_some(())
        })
        .is_some()
    }

    /// Whether a word ends here.
    pub fn is_word_end(&self) -> bool {
        self.is_end() || self.is_at(" ")
    }

    /// A number below 2^128, without a sign or a needless zero.
    pub fn big(&mut self) -> Option<u128> {
        let digits = self.part(|byte| byte.is_ascii_digit());
        if digits.len() > 1 && digits.starts_with('0') {
            return None;
        }
        digits.parse().ok()
    }

    /// A number of 128 bits, with a `-` before it where it is negative.
    pub fn int(&mut self) -> Option<i128> {
        if !self.eat("-") {
            return i128::try_from(self.big()?).ok();
        }
        let number = 0_i128.checked_sub_unsigned(self.big()?)?;
        (number < 0).then_some(number)
    }

    /// A number of 32 bits.
    pub fn number(&mut self) -> Option<u32> {
        u32::try_from(self.big()?).ok()
    }

    /// The number of a node.
    pub fn id<I: Id>(&mut self) -> Option<I> {
        Some(I::from_raw(self.number()?))
    }

    /// The number of a node, or `-`.
    pub fn opt_id<I: Id>(&mut self) -> Option<Option<I>> {
        if self.eat("-") {
            return Some(None);
        }
        Some(Some(self.id()?))
    }

    /// The number of a node, as the next word.
    pub fn next_id<I: Id>(&mut self) -> Option<I> {
        self.begin()?;
        self.id()
    }

    /// The number of a node or `-`, as the next word.
    pub fn next_opt_id<I: Id>(&mut self) -> Option<Option<I>> {
        self.begin()?;
        self.opt_id()
    }

    /// The number of a node behind a colon.
    pub fn part_id<I: Id>(&mut self) -> Option<I> {
        self.expect(":")?;
        self.id()
    }

    /// The number of a node or `-`, behind a colon.
    pub fn part_opt_id<I: Id>(&mut self) -> Option<Option<I>> {
        self.expect(":")?;
        self.opt_id()
    }

    /// The number of a node behind this, where the next word begins so.
    pub fn prefixed_id<I: Id>(&mut self, start: &str) -> Option<Option<I>> {
        if self.prefix(start) {
            return Some(Some(self.id()?));
        }
        Some(None)
    }

    /// Numbers of nodes joined by `,`, or `-`, as the next word.
    pub fn next_ids<I: Id>(&mut self) -> Option<Vec<I>> {
        self.begin()?;
        self.joined_or_none(",", Words::id)
    }

    /// One or more, joined by this.
    pub fn joined<T>(
        &mut self,
        between: &str,
        read: impl Fn(&mut Words<'a>) -> Option<T>,
    ) -> Option<Vec<T>> {
        let mut items = vec![read(self)?];
        while self.eat(between) {
            items.push(read(self)?);
        }
        Some(items)
    }

    /// The same, or `-` for none.
    pub fn joined_or_none<T>(
        &mut self,
        between: &str,
        read: impl Fn(&mut Words<'a>) -> Option<T>,
    ) -> Option<Vec<T>> {
        if self.eat("-") {
            return Some(Vec::new());
        }
        self.joined(between, read)
    }

    /// Each that is a word, to the line's end or to a word that begins with `..`.
    pub fn spaced<T>(&mut self, read: impl Fn(&mut Words<'a>) -> Option<T>) -> Option<Vec<T>> {
        let mut items = Vec::new();
        while !self.is_end() && !self.is_at(" ..") {
            self.begin()?;
            items.push(read(self)?);
        }
        Some(items)
    }

    /// All up to this mark, which is taken too.
    pub fn next_part(&mut self, mark: char) -> Option<&'a str> {
        let count = self.rest.find(mark)?;
        let part = self.take(count);
        self.take(mark.len_utf8());
        Some(part)
    }

    /// A text in quotes, as the next word.
    pub fn next_quoted(&mut self) -> Option<String> {
        self.begin()?;
        self.quoted()
    }

    /// Whether a name, bare or in quotes, comes next.
    pub fn is_at_name(&self) -> bool {
        self.is_at("\"") || self.rest.bytes().next().is_some_and(begins_name)
    }

    /// The bare name that comes next; empty where none does.
    pub fn bare_name(&mut self) -> &'a str {
        match self.rest.bytes().next() {
            Some(first) if begins_name(first) => {
                let count = self.rest.bytes().skip(1).position(|byte| !is_of_name(byte));
                self.take(count.map_or(self.rest.len(), |count| count + 1))
            }
            Some(_) | None => "",
        }
    }

    /// The bare name that comes next, which isn't taken.
    pub fn ahead_name(&self) -> &'a str {
        let mut ahead = *self;
        ahead.bare_name()
    }

    /// A name, bare or in quotes.
    pub fn name(&mut self) -> Option<Name> {
        if self.is_at("\"") {
            return Some(Name::new(self.quoted()?));
        }
        let bare = self.bare_name();
        (!bare.is_empty()).then(|| Name::new(bare))
    }

    /// A name, as the next word.
    pub fn next_name(&mut self) -> Option<Name> {
        self.begin()?;
        self.name()
    }

    /// A text in quotes.
    pub fn quoted(&mut self) -> Option<String> {
        String::from_utf8(self.in_quotes(false)?).ok()
    }

    /// Bytes in quotes.
    pub fn quoted_bytes(&mut self) -> Option<Vec<u8>> {
        self.in_quotes(true)
    }

    fn in_quotes(&mut self, has_bytes: bool) -> Option<Vec<u8>> {
        self.expect("\"")?;
        let mut bytes = Vec::new();
        loop {
            let plain = self.rest.find(['"', '\\'])?;
            bytes.extend_from_slice(self.take(plain).as_bytes());
            if self.eat("\"") {
                return Some(bytes);
            }
            self.expect("\\")?;
            if has_bytes && self.eat("x") {
                bytes.push(self.hex_byte()?);
            } else {
                let mut utf8 = [0; 4];
                bytes.extend_from_slice(self.escaped()?.encode_utf8(&mut utf8).as_bytes());
            }
        }
    }

    fn hex_byte(&mut self) -> Option<u8> {
        let digits = self.rest.get(..2)?;
        self.take(2);
        // A sign is no digit.
        let is_hex = digits.bytes().all(|byte| byte.is_ascii_hexdigit());
        is_hex.then(|| u8::from_str_radix(digits, 16).ok())?
    }

    fn escaped(&mut self) -> Option<char> {
        let letter = self.rest.chars().next()?;
        self.take(letter.len_utf8());
        match letter {
            'n' => Some('\n'),
            'r' => Some('\r'),
            't' => Some('\t'),
            '0' => Some('\0'),
            '\\' | '"' => Some(letter),
            'u' => {
                self.expect("{")?;
                let digits = self.part(|byte| byte.is_ascii_hexdigit());
                self.expect("}")?;
                char::from_u32(u32::from_str_radix(digits, 16).ok()?)
            }
            _ => None,
        }
    }
}
