//! What ties a store to the session that has it: opened once, asked under a lock, and opened anew where it was lost.

use crate::error::{HirError, Result, SessionError};
use crate::lines::{single, split, Answer};
use crate::nodes::Nodes;
use crate::notation::Line;
use crate::tables::{Key, Tables};
use crate::transport::{Status, Transport};
use std::collections::HashMap;
use std::fmt;
use std::sync::{Mutex, MutexGuard, PoisonError};

/// What a session has after the nodes: a store, or what owns it.
#[derive(Clone, Default)]
pub(crate) struct Tail {
    /// The lines that make the owner, of which the last has an answer. Empty for a store without one.
    pub lines: String,
    /// What is looked up of the owner where the tables may do without.
    pub optional: Option<Key>,
}

impl Tail {
    fn as_str(&self) -> &str {
        if self.lines.is_empty() {
            "finish\n"
        } else {
            &self.lines
        }
    }
}

/// The session of a store.
#[derive(Default)]
struct State {
    /// `None` where it has to be opened: at first, and where the last one was lost.
    transport: Option<Transport>,
    /// The tables that entries were sent of.
    tables: Option<u64>,
    /// The entries that were sent, each with the stamp that it had.
    sent: HashMap<Key, u64>,
    /// The stamp of the tables when the entries were last compared.
    stamp: u64,
    /// Answers as they came: memory that is used again.
    buffer: Vec<u8>,
}

/// The session of a store, and how it is opened.
///
/// A session takes a text at a time, so it is behind a lock: by that a store is `Sync`, since all that a question changes is in there,
/// and `Send`, since a session may be moved to another thread (see `ffi.rs` of handles; a process is no thread's). Two threads that ask
/// one store wait for each other; for questions in parallel each thread has a store of its own.
pub(crate) struct Link {
    state: Mutex<State>,
    tail: Tail,
}

impl fmt::Debug for Link {
    fn fmt(&self, f: &mut fmt::Formatter<'_>) -> fmt::Result {
        f.debug_struct("Link").finish_non_exhaustive()
    }
}

/// What a text came to, where it is an error.
fn check(status: Status, text: &str) -> Result<()> {
    match status {
        Status::Answered | Status::Refused(_) => Ok(()),
        Status::BadLine(number) => {
            let line = text.split('\n').nth(number.saturating_sub(1));
            Err(SessionError::BadLine(String::from(line.unwrap_or(""))).into())
        }
        Status::OutOfMemory => Err(HirError::OutOfMemory),
        Status::Gone => Err(SessionError::Gone(String::from("it isn't open")).into()),
    }
}

/// The definition that a refusal says the tables lack.
fn missing_key(answer: &Answer) -> Option<Key> {
    if !answer.is_refusal {
        return None;
    }
    Key::of_missing(crate::fault::Missing::from_text(&answer.text)?)
}

impl State {
    /// Sends a text. The buffer then has the answers.
    fn send_text(&mut self, text: &str) -> Result<()> {
        let Some(transport) = self.transport.as_mut() else {
            return Err(SessionError::Gone(String::from("it isn't open")).into());
        };
        match transport.ask(text.as_bytes(), &mut self.buffer) {
            Ok(status) => check(status, text),
            Err(error) => Err(error.into()),
        }
    }

    /// Sends a question, and reads its answer: where that is one line, without a copy of it.
    fn ask_one<T>(&mut self, question: &str, read: impl FnOnce(bool, &str) -> T) -> Result<T> {
        let checked = self.send_text(question);
        if checked.is_ok() {
            if let Some((is_refusal, text)) = single(&self.buffer) {
                return Ok(read(is_refusal, text));
            }
        }
        let mut answers = self.take_answers(checked, 1)?;
        let answer = answers.pop().ok_or_else(|| HirError::bad_answer(""))?;
        Ok(read(answer.is_refusal, &answer.text))
    }

    /// Sends a text, and gives its answers, of which there have to be so many. A session that fails is lost.
    fn ask(&mut self, text: &str, count: usize) -> Result<Vec<Answer>> {
        let checked = self.send_text(text);
        self.take_answers(checked, count)
    }

    /// The answers that the buffer has, where what was sent came to this.
    fn take_answers(&mut self, checked: Result<()>, count: usize) -> Result<Vec<Answer>> {
        let answers = split(&String::from_utf8_lossy(&self.buffer), count);
        // A long answer's memory isn't kept for the short ones after it.
        if self.buffer.capacity() > 1 << 20 {
            self.buffer = Vec::new();
        }
        if checked.is_ok() && answers.len() == count {
            return Ok(answers);
        }
        self.transport = None;
        checked?;
        Err(HirError::bad_answer(&format!("{} answers", answers.len())))
    }

    /// Opens a session that has the entries of tables that were sent, and then the nodes and what owns them. The answer to the last line.
    fn open(&mut self, nodes: &Nodes, tail: &Tail, tables: Option<&Tables>) -> Result<Answer> {
        let mut line = Line::new();
        let mut count = 1;
        match tables {
            Some(tables) => {
                let (sent, written) = (self.sent.keys(), &mut line);
                count += sent.map(|key| tables.write(*key, written)).sum::<usize>();
            }
            None => self.forget_tables(),
        }
        nodes.write(&mut line);
        line.lines(tail.as_str());
        self.transport = Some(Transport::open()?);
        let mut answers = self.ask(line.as_str(), count)?;
        answers.pop().ok_or_else(|| HirError::bad_answer(""))
    }

    fn forget_tables(&mut self) {
        self.sent.clear();
        self.tables = None;
    }

    /// Opens a session of what was accepted before, where there is none.
    fn ensure(&mut self, nodes: &Nodes, tail: &Tail, tables: Option<&Tables>) -> Result<()> {
        if self.transport.is_some() {
            return Ok(());
        }
        let answer = self.open(nodes, tail, tables)?;
        if answer.is_refusal {
            self.transport = None;
            return Err(HirError::bad_answer(&answer.text));
        }
        Ok(())
    }

    /// Sends these entries. One with a store of its own goes before the nodes, into a new session: it would be what questions ask.
    fn send(&mut self, keys: &[Key], tables: &Tables) -> Result<()> {
        for key in keys {
            self.sent.insert(*key, tables.stamp_of(*key).unwrap_or(0));
        }
        if keys.iter().any(|key| key.has_store()) {
            self.transport = None;
        }
        if self.transport.is_none() || keys.is_empty() {
            return Ok(());
        }
        let mut line = Line::new();
        for key in keys {
            tables.write(*key, &mut line);
        }
        self.ask(line.as_str(), 0)?;
        Ok(())
    }

    /// The entries of these tables that the session has to have before a question is asked.
    fn entries_before(&mut self, tail: &Tail, tables: &Tables) -> Vec<Key> {
        if self.tables != Some(tables.id()) {
            if !self.sent.is_empty() {
                // An entry can't be taken back.
                self.transport = None;
            }
            self.forget_tables();
            self.tables = Some(tables.id());
        } else if self.stamp == tables.stamp() {
            return Vec::new();
        }
        self.stamp = tables.stamp();
        let is_news = |key: &Key| {
            tables
                .stamp_of(*key)
                .is_some_and(|stamp| self.sent.get(key) != Some(&stamp))
        };
        let optional = Key::RAW_WORDS.into_iter().chain(tail.optional);
        let before = self.sent.keys().copied().chain(optional);
        let mut keys: Vec<Key> = before.filter(is_news).collect();
        keys.sort_unstable();
        keys.dedup();
        keys
    }
}

impl Link {
    /// The session of these nodes; their fault, where they aren't accepted.
    pub(crate) fn open(nodes: &Nodes, fault: fn(&str) -> HirError) -> Result<Link> {
        let (mut state, tail) = (State::default(), Tail::default());
        let answer = state.open(nodes, &tail, None)?;
        if answer.is_refusal {
            return Err(fault(&answer.text));
        }
        Ok(Link {
            state: Mutex::new(state),
            tail,
        })
    }

    /// Makes the store that of an owner. Where that is refused, the next question opens a session anew.
    pub(crate) fn claim(
        &mut self,
        nodes: &Nodes,
        tail: Tail,
        fault: fn(&str) -> HirError,
    ) -> Result<()> {
        let state = self.state.get_mut().unwrap_or_else(PoisonError::into_inner);
        state.ensure(nodes, &self.tail, None)?;
        let answer = state.ask(&tail.lines, 1)?.pop();
        match answer {
            Some(answer) if answer.is_refusal => {
                state.transport = None;
                Err(fault(&answer.text))
            }
            _ => {
                self.tail = tail;
                Ok(())
            }
        }
    }

    /// The lines that make what owns the store, or the store where nothing does.
    pub(crate) fn tail(&self) -> &str {
        self.tail.as_str()
    }

    /// The session. A thread that panicked may have left an answer behind, so it is then opened anew.
    fn lock(&self) -> MutexGuard<'_, State> {
        self.state.lock().unwrap_or_else(|poisoned| {
            let mut state = poisoned.into_inner();
            state.transport = None;
            state
        })
    }

    /// The answers to so many questions.
    pub(crate) fn ask(&self, nodes: &Nodes, text: &str, count: usize) -> Result<Vec<Answer>> {
        let mut state = self.lock();
        state.ensure(nodes, &self.tail, None)?;
        state.ask(text, count)
    }

    /// What is read of the answer to a question.
    pub(crate) fn ask_one<T>(
        &self,
        nodes: &Nodes,
        question: &str,
        read: impl FnOnce(bool, &str) -> T,
    ) -> Result<T> {
        let mut state = self.lock();
        state.ensure(nodes, &self.tail, None)?;
        state.ask_one(question, read)
    }

    /// The answers to questions that look definitions up in tables.
    ///
    /// Only what is looked up is sent: of many bodies that are printed with the same tables none gets them whole. What the answers say is
    /// missing is sent, together with all else that the nodes name, and asked again.
    pub(crate) fn ask_with(
        &self,
        nodes: &Nodes,
        tables: &Tables,
        questions: &[&str],
    ) -> Result<Vec<Answer>> {
        let mut state = self.lock();
        let before = state.entries_before(&self.tail, tables);
        state.send(&before, tables)?;
        let mut answers: Vec<Answer> = Vec::new();
        let mut open: Vec<usize> = (0..questions.len()).collect();
        let mut is_first = true;
        loop {
            let text: String = open.iter().flat_map(|at| [questions[*at], "\n"]).collect();
            state.ensure(nodes, &self.tail, Some(tables))?;
            let came = state.ask(&text, open.len())?;
            let is_sent =
                |key: &Key| state.sent.contains_key(key) || tables.stamp_of(*key).is_none();
            let (mut keys, mut again) = (Vec::new(), Vec::new());
            for (at, answer) in open.into_iter().zip(came) {
                if let Some(key) = missing_key(&answer).filter(|key| !is_sent(key)) {
                    keys.push(key);
                    again.push(at);
                }
                if at == answers.len() {
                    answers.push(answer);
                } else {
                    answers[at] = answer;
                }
            }
            if keys.is_empty() {
                return Ok(answers);
            }
            if is_first {
                is_first = false;
                keys.extend(
                    tables
                        .named_by(nodes)
                        .into_iter()
                        .filter(|key| !is_sent(key)),
                );
            }
            keys.sort_unstable();
            keys.dedup();
            state.send(&keys, tables)?;
            open = again;
        }
    }
}
