//! Changes of a source text.

use crate::span::{Place, Span};
use std::fmt;

/// A piece of the source, and what stands there afterwards. A piece without characters is a place where something is added.
#[derive(Clone, PartialEq, Eq, PartialOrd, Ord, Debug)]
pub struct Edit {
    /// The piece: it ends in the line that it begins in.
    pub span: Span,
    /// What stands there afterwards.
    pub text: String,
}

/// The piece and the text, as `3:5-3:6=name`.
impl fmt::Display for Edit {
    fn fmt(&self, f: &mut fmt::Formatter<'_>) -> fmt::Result {
        write!(f, "{}-{}={}", self.span.start, self.span.end, self.text)
    }
}

/// The texts of the lines of a source, with their ends.
pub struct Lines<'a> {
    lines: Vec<&'a str>,
}

impl<'a> Lines<'a> {
    /// The lines of a text.
    pub fn of(source: &'a str) -> Lines<'a> {
        Lines {
            lines: source.split_inclusive('\n').collect(),
        }
    }

    /// The bytes of its line that are before a place.
    fn bytes_before(&self, place: Place) -> Option<usize> {
        let line = self.lines.get(place.line.checked_sub(1)?)?;
        let mut starts = line.char_indices().map(|(at, _)| at).chain([line.len()]);
        starts.nth(place.column)
    }

    /// A piece of one line.
    pub fn text(&self, span: Span) -> Option<&'a str> {
        let line = self.lines.get(span.start.line.checked_sub(1)?)?;
        line.get(self.bytes_before(span.start)?..self.bytes_before(span.end)?)
    }

    /// The source with all these changes; `None` where one is none of the source, or begins before the end of the one before.
    pub fn with(&self, mut edits: Vec<Edit>) -> Option<String> {
        edits.sort();
        let mut lines: Vec<String> = self.lines.iter().map(|line| String::from(*line)).collect();
        let mut next: Option<Place> = None;
        for edit in edits.iter().rev() {
            let Span { start, end } = edit.span;
            if start.line != end.line || next.is_some_and(|next| end > next) {
                return None;
            }
            let range = self.bytes_before(start)?..self.bytes_before(end)?;
            lines
                .get_mut(start.line - 1)?
                .replace_range(range, &edit.text);
            next = Some(start);
        }
        Some(lines.concat())
    }
}

#[cfg(test)]
mod tests {
    use super::{Edit, Lines};
    use crate::span::{Place, Span};

    fn edit(line: usize, from: usize, to: usize, text: &str) -> Edit {
        let place = |column| Place { line, column };
        Edit {
            span: Span {
                start: place(from),
                end: place(to),
            },
            text: String::from(text),
        }
    }

    #[test]
    fn edits_change_their_pieces() {
        let lines = Lines::of("ä b c\nP { x }");
        let edits = vec![
            edit(2, 4, 5, "new"),
            edit(1, 2, 3, "long"),
            edit(2, 4, 4, "x: "),
            edit(1, 4, 5, ""),
        ];
        let changed = lines.with(edits);
        assert_eq!(changed.as_deref(), Some("ä long \nP { x: new }"));
        assert_eq!(lines.with(vec![edit(3, 0, 1, "")]), None);
        assert_eq!(
            lines.with(vec![edit(1, 4, 6, "")]).as_deref(),
            Some("ä b P { x }")
        );
        assert_eq!(lines.with(vec![edit(1, 0, 2, ""), edit(1, 1, 3, "")]), None);
    }
}
