//! Texts of lines and their answers, as they are: what the rest of the package writes and reads.
//!
//! `crates/hir_text/CALLING.md` of the repository is their grammar.

pub use crate::transport::{Report, Status};

use crate::error::{HirError, Result, SessionError};
use crate::transport::{self, Transport};
use std::fmt;

/// The answers to the questions of a text.
#[derive(Clone, PartialEq, Eq, Debug)]
pub struct Outcome {
    /// How the text was answered.
    pub status: Status,
    /// The answers, each in lines: the first after `= `, or `! ` where it is a refusal, each further one after `| `.
    pub answers: String,
}

/// Answers the questions of a text of lines, by a session of its own.
///
/// ```
/// use hir_expr_store::lines::answer;
///
/// # fn main() -> Result<(), hir_expr_store::HirError> {
/// let outcome = answer("expr path a\nexpr ref 0\nroot 1\nprint-expr 1\nchain 7\n")?;
/// assert_eq!(outcome.answers, "= &a\n! unreached\n");
/// # Ok(())
/// # }
/// ```
pub fn answer(text: &str) -> Result<Outcome> {
    let (status, answers) = transport::answer(text.as_bytes())?;
    Ok(Outcome {
        status,
        answers: String::from_utf8_lossy(&answers).into_owned(),
    })
}

/// The same of bytes, into a buffer, as far as it goes: where the report's length exceeds the buffer's, one of that length gets all.
pub fn answer_into(text: &[u8], buffer: &mut [u8]) -> Result<Report> {
    Ok(transport::answer_into(text, buffer)?)
}

/// The version of the library that is linked; `None` where none is, and sessions are processes.
pub fn library_version() -> Option<u32> {
    transport::library_version()
}

/// A session: it takes lines, and keeps what they made.
///
/// ```
/// use hir_expr_store::lines::Session;
///
/// # fn main() -> Result<(), hir_expr_store::HirError> {
/// let mut session = Session::open()?;
/// assert!(session.ask("expr path a\nexpr ref 0\nroot 1\n")?.is_empty());
/// let answers = session.ask("print-expr 1\nchain 7\n")?;
/// assert_eq!(answers[0].text, "&a");
/// assert!(answers[1].is_refusal);
/// # Ok(())
/// # }
/// ```
pub struct Session {
    transport: Transport,
    buffer: Vec<u8>,
}

impl fmt::Debug for Session {
    fn fmt(&self, f: &mut fmt::Formatter<'_>) -> fmt::Result {
        f.debug_struct("Session").finish_non_exhaustive()
    }
}

impl Session {
    /// A session that has taken no line.
    pub fn open() -> Result<Session> {
        Ok(Session {
            transport: Transport::open()?,
            buffer: Vec::new(),
        })
    }

    /// Takes the lines of a text, and gives their answers. A line that is none of the grammar is an error, and so is the want of memory;
    /// the session is then of no more use.
    pub fn ask(&mut self, text: &str) -> Result<Vec<Answer>> {
        let status = self.transport.ask(text.as_bytes(), &mut self.buffer)?;
        match status {
            Status::Answered | Status::Refused(_) => {
                Ok(split(&String::from_utf8_lossy(&self.buffer), 0))
            }
            Status::BadLine(number) => {
                let line = text.split('\n').nth(number.saturating_sub(1));
                Err(SessionError::BadLine(String::from(line.unwrap_or(""))).into())
            }
            Status::OutOfMemory => Err(HirError::OutOfMemory),
            Status::Gone => Err(SessionError::Gone(String::from("it isn't open")).into()),
        }
    }

    /// Takes the lines of a text, and writes their answers to a buffer, as far as it goes. The rest is kept until the next text.
    pub fn ask_into(&mut self, text: &[u8], buffer: &mut [u8]) -> Result<Report> {
        Ok(self.transport.ask_into(text, buffer)?)
    }

    /// Writes the next part of the answers that were kept to a buffer.
    pub fn fetch_into(&mut self, buffer: &mut [u8]) -> Report {
        self.transport.fetch_into(buffer)
    }
}

/// One answer: whether it is a refusal, and its text, whose lines are separated by line ends.
#[derive(Clone, PartialEq, Eq, Debug)]
pub struct Answer {
    /// Whether the call refused.
    pub is_refusal: bool,
    /// The answer, or why it was refused.
    pub text: String,
}

/// What comes after the mark of an answer's line.
fn after_mark(line: &str) -> &str {
    let rest = line.get(1..).unwrap_or("");
    rest.strip_prefix(' ').unwrap_or(rest)
}

/// Whether an answer that is one line is a refusal, and its text; `None` where there is more, or nothing.
pub(crate) fn single(answers: &[u8]) -> Option<(bool, &str)> {
    let line = answers.strip_suffix(b"\n")?;
    if line.contains(&b'\n') {
        return None;
    }
    let line = std::str::from_utf8(line).ok()?;
    Some((line.starts_with('!'), after_mark(line)))
}

/// The answers of a text, of which there are about so many.
pub(crate) fn split(text: &str, count: usize) -> Vec<Answer> {
    let mut answers: Vec<Answer> = Vec::with_capacity(count);
    // A carriage return is part of an answer, so `lines` won't do.
    for line in text.split_terminator('\n') {
        match (line.as_bytes().first(), answers.last_mut()) {
            (Some(b'|'), Some(answer)) => {
                answer.text.push('\n');
                answer.text.push_str(after_mark(line));
            }
            (mark, _) => answers.push(Answer {
                is_refusal: mark == Some(&b'!'),
                text: String::from(after_mark(line)),
            }),
        }
    }
    answers
}

impl Outcome {
    /// The answers, one for each question and for each other line that has one, in their order.
    pub fn split(&self) -> Vec<Answer> {
        split(&self.answers, 0)
    }
}

/// The first words of the lines that have no answer. Each other line has one.
const SILENT: [&str; 42] = [
    "begin",
    "bind",
    "block-scope",
    "const-param",
    "crate-name",
    "definition",
    "diagnostic",
    "expansion",
    "expr",
    "field",
    "hygiene",
    "label",
    "lifetime",
    "lifetime-param",
    "map-expr",
    "map-expr-back",
    "map-field-back",
    "map-label",
    "map-label-back",
    "map-lifetime",
    "map-lifetime-back",
    "map-pat",
    "map-pat-back",
    "map-pat-field-back",
    "map-type",
    "map-type-back",
    "name",
    "owner",
    "param",
    "parent",
    "pat",
    "pat-hygiene",
    "raw-words",
    "repr",
    "root",
    "roots",
    "self",
    "self-source",
    "type",
    "type-param",
    "where",
    "where-lifetime",
];

/// Whether a line has an answer.
fn has_answer(line: &[u8]) -> bool {
    match line.first() {
        None | Some(b'#' | b'=' | b'!' | b'|') => false,
        Some(_) => {
            let word = line.split(|byte| *byte == b' ').next().unwrap_or_default();
            !SILENT.iter().any(|silent| silent.as_bytes() == word)
        }
    }
}

/// The number of the line that has this answer of a text, both counted in order, the lines from 1.
pub(crate) fn line_of_answer(text: &[u8], index: usize) -> usize {
    let lines = text.split(|byte| *byte == b'\n').zip(1..);
    let mut asked = lines.filter(|(line, _)| has_answer(line));
    asked.nth(index).map_or(0, |(_, number)| number)
}
