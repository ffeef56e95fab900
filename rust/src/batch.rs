//! Batches: many questions on a store or a body, sent together.

use crate::body::Body;
use crate::error::{HirError, Result};
use crate::lines::Answer;
use crate::query::{read_answer, Query};
use crate::store::ExpressionStore;
use crate::tables::Tables;
use std::fmt;
use std::sync::atomic::{AtomicU64, Ordering};

/// A question of a batch, by which `Answers` are asked for its answer, which is a `T`. It is of no use to the answers of another batch.
pub struct Question<T> {
    batch: u64,
    index: usize,
    read: fn(&str) -> Option<T>,
}

impl<T> Clone for Question<T> {
    fn clone(&self) -> Question<T> {
        *self
    }
}

impl<T> Copy for Question<T> {}

impl<T> fmt::Debug for Question<T> {
    fn fmt(&self, f: &mut fmt::Formatter<'_>) -> fmt::Result {
        write!(f, "Question({} of batch {})", self.index, self.batch)
    }
}

/// Questions on a store or a body, which are sent together: one crossing to the session for all of them.
///
/// Nearly each call that asks a store has a twin here, which adds the question, most of them of the same name: `print` is
/// [`print_body`](Batch::print_body), and what a path resolves to is asked by [`resolve`](Batch::resolve) or
/// [`usages`](Batch::usages). A text is printed with the tables of the batch.
///
/// ```
/// use hir_expr_store::{Batch, ExpressionStoreBuilder, FunctionId, HirError, make};
///
/// # fn main() -> Result<(), HirError> {
/// let mut builder = ExpressionStoreBuilder::new();
/// let x = make::bind(&mut builder, "x");
/// let paths = [make::local(&mut builder, "x"), make::local(&mut builder, "y")];
/// let root = make::tuple(&mut builder, &paths);
/// let body = make::body(FunctionId::from_raw(0), builder, &[x], root)?;
///
/// let mut batch = Batch::of_body(&body);
/// let children = batch.children(root);
/// let used = batch.usages_of(body.bound_by(x).unwrap());
/// let answers = batch.ask()?;
/// assert_eq!(answers.get(children)?, paths);
/// assert_eq!(answers.get(used)?, [paths[0].into()]);
///
/// let other = Batch::of_body(&body).ask()?;
/// assert_eq!(other.get(children), Err(HirError::OtherBatch));
/// # Ok(())
/// # }
/// ```
#[derive(Debug)]
pub struct Batch<'a> {
    id: u64,
    store: &'a ExpressionStore,
    tables: Option<&'a Tables>,
    /// The lines of the questions, each with its end.
    text: String,
    /// Where the line of each question ends in the text.
    ends: Vec<usize>,
    /// Those that print.
    prints: Vec<usize>,
}

fn next_id() -> u64 {
    static NEXT: AtomicU64 = AtomicU64::new(0);
    NEXT.fetch_add(1, Ordering::Relaxed)
}

impl<'a> Batch<'a> {
    /// Questions on a store. Those on scopes are then on the scopes that the store has by itself, as that of a signature.
    pub fn of_store(store: &'a ExpressionStore) -> Batch<'a> {
        Batch {
            id: next_id(),
            store,
            tables: None,
            text: String::new(),
            ends: Vec::new(),
            prints: Vec::new(),
        }
    }

    /// Questions on a body and its store.
    pub fn of_body(body: &'a Body) -> Batch<'a> {
        Batch::of_store(body.store())
    }

    /// Gives the tables that printed texts are looked up in.
    #[must_use]
    pub fn with_tables(mut self, tables: &'a Tables) -> Batch<'a> {
        self.tables = Some(tables);
        self
    }

    /// How many questions there are.
    pub fn len(&self) -> usize {
        self.ends.len()
    }

    /// Whether there are no questions.
    pub fn is_empty(&self) -> bool {
        self.ends.is_empty()
    }

    pub(crate) fn push<T>(&mut self, query: &Query<T>) -> Question<T> {
        let index = self.ends.len();
        if query.prints {
            self.prints.push(index);
        }
        self.text.push_str(&query.line);
        self.text.push('\n');
        self.ends.push(self.text.len());
        Question {
            batch: self.id,
            index,
            read: query.read,
        }
    }

    /// The lines of the questions, each without its end.
    fn lines(&self) -> Vec<&str> {
        self.text.split_terminator('\n').collect()
    }

    /// Asks all questions.
    pub fn ask(&self) -> Result<Answers> {
        let answers = if self.is_empty() {
            Vec::new()
        } else if self.prints.is_empty() {
            self.store.ask_lines(&self.text, self.len())?
        } else {
            let none = Tables::new();
            let tables = self.tables.unwrap_or(&none);
            self.store.ask_lines_with(tables, &self.lines())?
        };
        Ok(Answers {
            batch: self.id,
            answers,
        })
    }
}

/// The answers to the questions of a batch.
#[derive(Clone, PartialEq, Eq, Debug)]
pub struct Answers {
    batch: u64,
    answers: Vec<Answer>,
}

impl Answers {
    /// The answer to a question of the batch, or why it was refused.
    pub fn get<T>(&self, question: Question<T>) -> Result<T> {
        match self.answers.get(question.index) {
            Some(answer) if question.batch == self.batch => read_answer(question.read, answer),
            _ => Err(HirError::OtherBatch),
        }
    }
}
