//! Places in a source file.

use proc_macro2::LineColumn;
use std::fmt;
use syn::spanned::Spanned;

/// A place: its line, counted from 1, and the characters before it in that line.
#[derive(Clone, Copy, PartialEq, Eq, PartialOrd, Ord, Hash, Debug)]
pub struct Place {
    /// The line, counted from 1.
    pub line: usize,
    /// The characters before it in the line.
    pub column: usize,
}

impl From<LineColumn> for Place {
    fn from(place: LineColumn) -> Place {
        Place {
            line: place.line,
            column: place.column,
        }
    }
}

/// The line and the column, both counted from 1.
impl fmt::Display for Place {
    fn fmt(&self, f: &mut fmt::Formatter<'_>) -> fmt::Result {
        write!(f, "{}:{}", self.line, self.column + 1)
    }
}

/// From a place to another.
#[derive(Clone, Copy, PartialEq, Eq, PartialOrd, Ord, Hash, Debug)]
pub struct Span {
    /// Where it begins.
    pub start: Place,
    /// Where it ends: behind its last character.
    pub end: Place,
}

impl Span {
    /// That of what was parsed.
    pub fn of(node: &impl Spanned) -> Span {
        let span = node.span();
        Span {
            start: span.start().into(),
            end: span.end().into(),
        }
    }
}
