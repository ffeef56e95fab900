//! The notation of nodes: the words that a line has, written and read.
//!
//! `crates/hir_text/CALLING.md` of the repository is its grammar. Each node has one line that is written for it; a few others are read as
//! the same node, as `for<->` without names is.

mod binding;
mod defs;
mod expr;
mod line;
mod literal;
mod operators;
mod pat;
pub(crate) mod path;
pub(crate) mod type_ref;
mod words;

pub use line::Line;
pub use words::Words;

/// What has words in a line.
pub trait Notation: Sized {
    /// Writes its words behind what the line has.
    fn write(&self, line: &mut Line);

    /// Reads it from the front of what is left of a line. `None` where that isn't its notation: what is left is then of no use.
    fn read(words: &mut Words<'_>) -> Option<Self>;

    /// Its words, as a line by themselves.
    fn to_line(&self) -> String {
        let mut line = Line::new();
        self.write(&mut line);
        line.into_string()
    }

    /// What a line has, where that is one of these and nothing else.
    fn from_line(line: &str) -> Option<Self> {
        let mut words = Words::new(line);
        let value = Self::read(&mut words)?;
        words.is_end().then_some(value)
    }
}

/// The notation of values that are each one word of a table.
macro_rules! word_tables {
    ($($name:ty { $($value:pat => $word:literal = $made:expr,)* })*) => {$(
        impl Notation for $name {
            fn write(&self, line: &mut Line) {
                line.word(match self {
                    $($value => $word,)*
                });
            }

            fn read(words: &mut Words<'_>) -> Option<$name> {
                match words.next_word()? {
                    $($word => Some($made),)*
                    _ => None,
                }
            }
        }
    )*};
}
pub(crate) use word_tables;
