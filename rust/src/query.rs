//! A question as its line, and how its answer is read: what a call and a batch have in common.

use crate::error::{HirError, Result};
use crate::ids::Id;
use crate::lines::Answer;
use crate::name::Name;
use crate::notation::{Line, Notation, Words};

/// A question whose answer is a `T`.
pub(crate) struct Query<T> {
    pub line: String,
    pub read: fn(&str) -> Option<T>,
    /// Whether definitions are looked up in tables.
    pub prints: bool,
}

impl<T> Query<T> {
    pub(crate) fn new(line: impl Into<String>, read: fn(&str) -> Option<T>) -> Query<T> {
        Query {
            line: line.into(),
            read,
            prints: false,
        }
    }

    /// The question that has this line after its word.
    pub(crate) fn of(
        word: &str,
        write: impl FnOnce(&mut Line),
        read: fn(&str) -> Option<T>,
    ) -> Query<T> {
        let mut line = Line::behind(word);
        write(&mut line);
        Query::new(line.into_string(), read)
    }

    /// The question on a node of this number.
    pub(crate) fn id<I: Id>(word: &str, id: I, read: fn(&str) -> Option<T>) -> Query<T> {
        Query::of(word, |line| line.id(id), read)
    }
}

impl Query<String> {
    /// The same of a text that is printed.
    pub(crate) fn print(word: &str, write: impl FnOnce(&mut Line)) -> Query<String> {
        let mut query = Query::of(word, write, |text| Some(String::from(text)));
        query.prints = true;
        query
    }
}

/// What an answer says.
pub(crate) fn read_answer<T>(read: fn(&str) -> Option<T>, answer: &Answer) -> Result<T> {
    read_text(read, answer.is_refusal, &answer.text)
}

/// What an answer of this text says.
pub(crate) fn read_text<T>(read: fn(&str) -> Option<T>, is_refusal: bool, text: &str) -> Result<T> {
    if is_refusal {
        return Err(HirError::of_refusal(text));
    }
    read(text).ok_or_else(|| HirError::bad_answer(text))
}

/// Calls on a subject, each of which is a question, and the same questions of a batch.
macro_rules! questions {
    ({$($subject:tt)*} $($(#[$meta:meta])* fn $name:ident(&self $(, $arg:ident: $ty:ty)*) -> $result:ty { $query:expr })*) => {
        $($subject)* {
            $(
                $(#[$meta])*
                pub fn $name(&self $(, $arg: $ty)*) -> $crate::error::Result<$result> {
                    self.ask(&$query)
                }
            )*
        }

        /// The questions of the same names, asked in a batch.
        impl $crate::batch::Batch<'_> {
            $(
                $(#[$meta])*
                pub fn $name(&mut self $(, $arg: $ty)*) -> $crate::batch::Question<$result> {
                    self.push(&$query)
                }
            )*
        }
    };
}
pub(crate) use questions;

/// The words of an answer, each read by this.
pub(crate) fn read_words<'a, T>(
    text: &'a str,
    read: fn(&mut Words<'a>) -> Option<T>,
) -> Option<Vec<T>> {
    let mut words = Words::new(text);
    let mut items = Vec::new();
    while !words.is_end() {
        words.begin()?;
        items.push(read(&mut words)?);
    }
    Some(items)
}

/// Numbers.
pub(crate) fn read_ids<I: Id>(text: &str) -> Option<Vec<I>> {
    read_words(text, Words::id)
}

/// A number.
pub(crate) fn read_id<I: Id>(text: &str) -> Option<I> {
    let mut words = Words::new(text);
    let id = words.id()?;
    words.is_end().then_some(id)
}

/// A number, or `none`.
pub(crate) fn read_opt_id<I: Id>(text: &str) -> Option<Option<I>> {
    read_opt(text, read_id)
}

/// What this reads, or `none`.
pub(crate) fn read_opt<T>(text: &str, read: fn(&str) -> Option<T>) -> Option<Option<T>> {
    match text {
        "none" => Some(None),
        _ => Some(Some(read(text)?)),
    }
}

/// A value in its notation.
pub(crate) fn read_value<T: Notation>(text: &str) -> Option<T> {
    T::from_line(text)
}

/// A value in its notation, or `none`.
pub(crate) fn read_opt_value<T: Notation>(text: &str) -> Option<Option<T>> {
    read_opt(text, T::from_line)
}

/// Values, each in a line of its own.
pub(crate) fn read_lines<T>(text: &str, read: fn(&str) -> Option<T>) -> Option<Vec<T>> {
    if text.is_empty() {
        return Some(Vec::new());
    }
    text.split('\n').map(read).collect()
}

/// Names.
pub(crate) fn read_names(text: &str) -> Option<Vec<Name>> {
    read_words(text, Words::name)
}

/// `yes` or `no`.
pub(crate) fn read_bool(text: &str) -> Option<bool> {
    match text {
        "yes" => Some(true),
        "no" => Some(false),
        _ => None,
    }
}
