//! A session of the program `hir_ask`: a process that takes lines from its standard input, and writes each answer to its standard output.

use crate::error::SessionError;
use crate::lines::line_of_answer;
use crate::transport::{Report, Status};
use std::collections::BTreeSet;
use std::ffi::OsStr;
use std::io::{self, BufRead, BufReader, Read, Write};
use std::process::{Child, ChildStdin, ChildStdout, Command, ExitStatus, Stdio};
use std::thread;

/// As many bytes as an empty pipe takes before anything is read from it, on any system.
const PIPE: usize = 512;

/// The least number of a mark. Such a number has ten digits, and no store has so many nodes.
const LEAST_MARK: u32 = 4_290_000_000;

/// A process of the program.
pub(crate) struct Program {
    process: Child,
    /// `None` once no more lines can be sent.
    stdin: Option<ChildStdin>,
    stdout: BufReader<ChildStdout>,
    marks: Marks,
    /// How many lines were sent.
    lines: usize,
    /// The answers of the last text that weren't fetched yet, and how many bytes of them were.
    kept: Vec<u8>,
    fetched: usize,
}

/// The numbers that end an ask: each ask ends with a question on the enum of the variant of a number that no line of the session has, so
/// that no answer to a line is that of the question. The question looks a number up in the tables, and touches nothing else.
struct Marks {
    taken: BTreeSet<u32>,
    next: u32,
}

impl Marks {
    fn new() -> Marks {
        Marks {
            taken: BTreeSet::new(),
            next: u32::MAX,
        }
    }

    /// A number that occurs neither in this text nor in those before.
    fn mark(&mut self, text: &[u8]) -> u32 {
        for digits in text.split(|byte| !byte.is_ascii_digit()) {
            if digits.len() == 10 && digits.starts_with(b"429") {
                let number = std::str::from_utf8(digits)
                    .ok()
                    .and_then(|it| it.parse().ok());
                self.taken
                    .extend(number.filter(|it: &u32| *it >= LEAST_MARK));
            }
        }
        while self.taken.contains(&self.next) {
            self.next -= 1;
        }
        self.next
    }
}

/// What the program says at its end.
struct End {
    status: ExitStatus,
    errors: String,
}

fn failed(doing: &str, error: &io::Error) -> SessionError {
    SessionError::Gone(format!("{doing}: {error}"))
}

fn start(program: &OsStr) -> Result<Child, SessionError> {
    Command::new(program)
        .stdin(Stdio::piped())
        .stdout(Stdio::piped())
        .stderr(Stdio::piped())
        .spawn()
        .map_err(|error| SessionError::NotStarted {
            program: program.to_string_lossy().into_owned(),
            error: error.to_string(),
        })
}

/// Writes all of a text, from a thread of its own where a pipe may not take it at once, while something is done.
fn write_beside<T>(
    stdin: &mut ChildStdin,
    text: &[u8],
    done: impl FnOnce() -> T,
) -> (io::Result<()>, T) {
    if text.len() <= PIPE {
        return (stdin.write_all(text), done());
    }
    thread::scope(|scope| {
        let writer = scope.spawn(|| stdin.write_all(text));
        let value = done();
        let written = writer
            .join()
            .unwrap_or_else(|_| Err(io::Error::other("the writer ended")));
        (written, value)
    })
}

impl Program {
    /// A process of this program, which has taken no line.
    pub(crate) fn open(program: &OsStr) -> Result<Program, SessionError> {
        let mut process = start(program)?;
        match (process.stdin.take(), process.stdout.take()) {
            (Some(stdin), Some(stdout)) => Ok(Program {
                process,
                stdin: Some(stdin),
                stdout: BufReader::new(stdout),
                marks: Marks::new(),
                lines: 0,
                kept: Vec::new(),
                fetched: 0,
            }),
            _ => Err(SessionError::Gone(String::from("it has no pipes"))),
        }
    }

    /// Sends a text and the question that ends it, and keeps the answers before that question's. Whether that answer came.
    fn send(&mut self, text: &[u8]) -> Result<bool, SessionError> {
        self.kept.clear();
        self.fetched = 0;
        let Some(stdin) = self.stdin.as_mut() else {
            return Err(SessionError::Gone(String::from("it has ended")));
        };
        let mark = self.marks.mark(text);
        let mut sent = Vec::with_capacity(text.len() + 32);
        sent.extend_from_slice(text);
        if !text.is_empty() && !text.ends_with(b"\n") {
            sent.push(b'\n');
        }
        sent.extend_from_slice(format!("parent-of {mark}\n").as_bytes());
        let end = format!("! Missing(Variant(EnumVariantId({mark})))\n");
        let (stdout, kept) = (&mut self.stdout, &mut self.kept);
        let (written, read) = write_beside(stdin, &sent, || read_to(stdout, end.as_bytes(), kept));
        let has_ended = read.map_err(|error| failed("reading its answers", &error))?;
        // A program that ended doesn't take what is still to be written: why it ended says more.
        match written {
            Err(error) if has_ended => Err(failed("writing to it", &error)),
            _ => Ok(has_ended),
        }
    }

    /// Ends the process, and says how it ended.
    fn end(&mut self) -> Result<End, SessionError> {
        self.stdin = None;
        let mut errors = String::new();
        if let Some(mut stderr) = self.process.stderr.take() {
            // What can't be read says nothing; the status is still to come.
            let _ = stderr.read_to_string(&mut errors);
        }
        let status = self
            .process
            .wait()
            .map_err(|error| failed("waiting for it", &error))?;
        Ok(End { status, errors })
    }

    /// Why the program ended by itself, as a status of the text of these lines.
    fn ended(&mut self, before: usize) -> Result<Status, SessionError> {
        let end = self.end()?;
        match end.status.code() {
            Some(2) => {
                let number = last_number(&end.errors).unwrap_or(0);
                Ok(Status::BadLine(number.saturating_sub(before)))
            }
            Some(3) => Ok(Status::OutOfMemory),
            _ => Err(SessionError::Gone(format!(
                "{}, {}",
                end.status,
                end.errors.trim()
            ))),
        }
    }

    /// Takes the lines of a text, and writes their answers to a buffer, as far as it goes; the rest is kept.
    pub(crate) fn ask_into(
        &mut self,
        text: &[u8],
        buffer: &mut [u8],
    ) -> Result<Report, SessionError> {
        let before = self.lines;
        let ends = text.split(|byte| *byte == b'\n').count() - 1;
        self.lines += ends + usize::from(!text.is_empty() && !text.ends_with(b"\n")) + 1;
        let status = if self.send(text)? {
            match first_refusal(&self.kept) {
                Some(index) => Status::Refused(line_of_answer(text, index)),
                None => Status::Answered,
            }
        } else {
            self.ended(before)?
        };
        Ok(Report {
            status,
            length: self.kept.len(),
            written: self.fetch(buffer),
        })
    }

    fn fetch(&mut self, buffer: &mut [u8]) -> usize {
        let left = self.kept.get(self.fetched..).unwrap_or_default();
        let count = left.len().min(buffer.len());
        buffer[..count].copy_from_slice(&left[..count]);
        self.fetched += count;
        count
    }

    /// Writes the next part of what was kept to a buffer.
    pub(crate) fn fetch_into(&mut self, buffer: &mut [u8]) -> Report {
        Report {
            status: Status::Answered,
            length: self.kept.len() - self.fetched,
            written: self.fetch(buffer),
        }
    }
}

/// The process ends with its session. It is killed, since nothing that it might still do is wanted.
impl Drop for Program {
    fn drop(&mut self) {
        self.stdin = None;
        // It may have ended already, which is as good.
        let _ = self.process.kill();
        let _ = self.process.wait();
    }
}

/// Reads lines up to this one, which isn't kept. Whether it came before the end.
fn read_to(from: &mut impl BufRead, end: &[u8], kept: &mut Vec<u8>) -> io::Result<bool> {
    loop {
        let start = kept.len();
        if from.read_until(b'\n', kept)? == 0 {
            return Ok(false);
        }
        if &kept[start..] == end {
            kept.truncate(start);
            return Ok(true);
        }
    }
}

/// How many answers come before the first that is a refusal, where one is.
fn first_refusal(answers: &[u8]) -> Option<usize> {
    let mut firsts = answers
        .split(|byte| *byte == b'\n')
        .filter(|line| line.first().is_some_and(|mark| *mark != b'|'));
    firsts.position(|line| line.first() == Some(&b'!'))
}

/// The number at the end of a text, as that of a line.
fn last_number(text: &str) -> Option<usize> {
    text.trim_end()
        .rsplit(|c: char| !c.is_ascii_digit())
        .next()?
        .parse()
        .ok()
}

/// Answers the questions of a text by a process of its own.
pub(crate) fn answer(program: &OsStr, text: &[u8]) -> Result<(Status, Vec<u8>), SessionError> {
    let mut process = Program::open(program)?;
    let Some(mut stdin) = process.stdin.take() else {
        return Err(SessionError::Gone(String::from("it has no input")));
    };
    let mut answers = Vec::new();
    let stdout = &mut process.stdout;
    let read = thread::scope(|scope| {
        scope.spawn(move || {
            // A program that ended at a bad line doesn't take the rest.
            let _ = stdin.write_all(text);
        });
        stdout.read_to_end(&mut answers)
    });
    read.map_err(|error| failed("reading its answers", &error))?;
    let end = process.end()?;
    let line = last_number(&end.errors).unwrap_or(0);
    match end.status.code() {
        Some(0) => Ok((Status::Answered, answers)),
        Some(1) => Ok((Status::Refused(line), answers)),
        Some(2) => Ok((Status::BadLine(line), answers)),
        Some(3) => Ok((Status::OutOfMemory, answers)),
        _ => Err(SessionError::Gone(format!(
            "{}, {}",
            end.status,
            end.errors.trim()
        ))),
    }
}

#[cfg(test)]
mod tests {
    use super::{first_refusal, last_number, Marks};

    #[test]
    fn a_mark_occurs_in_no_text() {
        let mut marks = Marks::new();
        assert_eq!(marks.mark(b"expr path a\n"), u32::MAX);
        assert_eq!(
            marks.mark(b"parent 4294967295 0\nparent 4294967293 1\n"),
            u32::MAX - 1
        );
        assert_eq!(marks.mark(b"parent-of 4294967294"), u32::MAX - 3);
        assert_eq!(
            marks.mark(b"42949672920 429496729x 04294967292\n"),
            u32::MAX - 3
        );
    }

    #[test]
    fn refusals_are_counted_by_their_first_lines() {
        assert_eq!(first_refusal(b""), None);
        assert_eq!(first_refusal(b"= a\n| ! b\n| = c\n! d\n"), Some(1));
        assert_eq!(last_number("bad line 12\n"), Some(12));
        assert_eq!(last_number("out of memory\n"), None);
    }
}
