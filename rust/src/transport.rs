//! How a session is held: as a handle of the C library, or as a process of the program `hir_ask`.

use crate::error::SessionError;
#[cfg(hir_c)]
use crate::ffi::{self, Library};
use crate::program::{self, Program};
use std::env;
use std::ffi::OsString;

/// The variable that names the program whose processes sessions are. Where it isn't set, they are handles of the library.
pub(crate) const PROGRAM: &str = "HIR_ASK_PROGRAM";

/// How a text was answered.
#[derive(Clone, Copy, PartialEq, Eq, Debug)]
pub enum Status {
    /// Each line was read, and no question was refused.
    Answered,
    /// Each line was read, and the question in the line of this number, counted from 1, is the first that was refused.
    Refused(usize),
    /// The line of this number, counted from 1, is none of the grammar: the answers are those of the lines before it.
    BadLine(usize),
    /// Out of memory: the answers are a prefix of those of the lines before.
    OutOfMemory,
    /// The session isn't open: it has ended at a bad line, or for want of memory.
    Gone,
}

/// What was answered into a buffer.
#[derive(Clone, Copy, PartialEq, Eq, Debug)]
pub struct Report {
    /// How the text was answered.
    pub status: Status,
    /// How many bytes the answers have, those that were fetched before left out.
    pub length: usize,
    /// How many of them were written: the lesser of `length` and the buffer's length.
    pub written: usize,
}

/// An open session.
pub(crate) enum Transport {
    #[cfg(hir_c)]
    Library(Library),
    Program(Box<Program>),
}

fn program() -> Option<OsString> {
    env::var_os(PROGRAM).filter(|name| !name.is_empty())
}

/// The version of the library that this package calls.
#[cfg(hir_c)]
const VERSION: u32 = 1;

#[cfg(hir_c)]
fn open_library() -> Result<Transport, SessionError> {
    let version = ffi::version();
    if version != VERSION {
        return Err(SessionError::Version(version));
    }
    match Library::open() {
        Some(library) => Ok(Transport::Library(library)),
        None => Err(SessionError::OutOfMemory),
    }
}

#[cfg(not(hir_c))]
fn open_library() -> Result<Transport, SessionError> {
    Err(SessionError::NoLibrary)
}

#[cfg(hir_c)]
fn answer_by_library(text: &[u8]) -> Result<(Status, Vec<u8>), SessionError> {
    let mut buffer = vec![0; text.len().saturating_mul(2).saturating_add(1 << 14)];
    loop {
        let report = ffi::answer_into(text, &mut buffer);
        if report.length <= buffer.len() {
            buffer.truncate(report.written);
            return Ok((report.status, buffer));
        }
        buffer.resize(report.length, 0);
    }
}

#[cfg(not(hir_c))]
fn answer_by_library(_: &[u8]) -> Result<(Status, Vec<u8>), SessionError> {
    Err(SessionError::NoLibrary)
}

/// Answers the questions of a text by a session of its own.
pub(crate) fn answer(text: &[u8]) -> Result<(Status, Vec<u8>), SessionError> {
    match program() {
        Some(program) => program::answer(&program, text),
        None => answer_by_library(text),
    }
}

/// The same into a buffer, as far as it goes.
pub(crate) fn answer_into(text: &[u8], buffer: &mut [u8]) -> Result<Report, SessionError> {
    #[cfg(hir_c)]
    if program().is_none() {
        return Ok(ffi::answer_into(text, buffer));
    }
    let (status, answers) = answer(text)?;
    let written = answers.len().min(buffer.len());
    buffer[..written].copy_from_slice(&answers[..written]);
    Ok(Report {
        status,
        length: answers.len(),
        written,
    })
}

/// The version of the library that is linked; `None` where none is.
#[allow(clippy::unnecessary_wraps)] // A build without a library has none.
pub(crate) fn library_version() -> Option<u32> {
    #[cfg(hir_c)]
    return Some(ffi::version());
    #[cfg(not(hir_c))]
    None
}

impl Transport {
    /// A session that has taken no line.
    pub(crate) fn open() -> Result<Transport, SessionError> {
        match program() {
            Some(program) => Ok(Transport::Program(Box::new(Program::open(&program)?))),
            None => open_library(),
        }
    }

    /// Takes the lines of a text, and writes their answers to a buffer, as far as it goes; the rest is kept.
    pub(crate) fn ask_into(
        &mut self,
        text: &[u8],
        buffer: &mut [u8],
    ) -> Result<Report, SessionError> {
        match self {
            #[cfg(hir_c)]
            Transport::Library(library) => Ok(library.ask_into(text, buffer)),
            Transport::Program(program) => program.ask_into(text, buffer),
        }
    }

    /// Writes the next part of what was kept to a buffer.
    pub(crate) fn fetch_into(&mut self, buffer: &mut [u8]) -> Report {
        match self {
            #[cfg(hir_c)]
            Transport::Library(library) => library.fetch_into(buffer),
            Transport::Program(program) => program.fetch_into(buffer),
        }
    }

    /// Takes the lines of a text; `answers` then has their answers, all of them. It keeps its memory from one text to the next.
    pub(crate) fn ask(
        &mut self,
        text: &[u8],
        answers: &mut Vec<u8>,
    ) -> Result<Status, SessionError> {
        // Most answers are short: what is longer is fetched once its length is known.
        answers.resize(1 << 8, 0);
        let report = self.ask_into(text, answers)?;
        let mut written = report.written;
        answers.resize(report.length, 0);
        while written < report.length {
            let next = self.fetch_into(&mut answers[written..]);
            if next.written == 0 {
                return Err(SessionError::Gone(String::from(
                    "it doesn't give what it kept",
                )));
            }
            written += next.written;
        }
        Ok(report.status)
    }
}
