//! The one error of the package: why a builder, a body, a signature or a question was refused, or why it wasn't asked.

use crate::fault::{BodyFault, FinishFault, Missing, SignatureFault};
use crate::usages::RenameFault;
use std::error::Error;
use std::fmt;

/// Why a call failed.
///
/// ```
/// use hir_expr_store::{ExpressionStoreBuilder, FinishFault, HirError, NodeId, make};
///
/// let mut builder = ExpressionStoreBuilder::new();
/// let x = make::local(&mut builder, "x");
/// make::tuple(&mut builder, &[x, x]);
/// builder.begin_roots();
/// let refused = builder.finish().unwrap_err();
/// assert_eq!(refused.error, HirError::Store(FinishFault::SharedChild(NodeId::Expr(x))));
/// assert_eq!(refused.to_string(), "ExprId(0) is a child more than once");
/// ```
#[derive(Clone, PartialEq, Eq, Debug)]
#[non_exhaustive]
pub enum HirError {
    /// The nodes and roots of a builder have this fault.
    Store(FinishFault),
    /// The parts of a body have this fault.
    Body(BodyFault),
    /// The parts of a signature, or of the fields of a variant, have this fault.
    Signature(SignatureFault),
    /// The binding may not have the name.
    Rename(RenameFault),
    /// The tables lack this.
    Missing(Missing),
    /// An id isn't in the store, or what is asked of a body is asked of a store that isn't one's.
    UnknownId,
    /// The expression has no scope: the body doesn't reach it, or it isn't in the store.
    Unreached,
    /// The expression isn't a closure that the body reaches.
    NotAClosure,
    /// More scopes or entries are needed than can be numbered.
    Full,
    /// Out of memory.
    OutOfMemory,
    /// The question is one of another batch.
    OtherBatch,
    /// The session that has the store isn't there, or says what this package doesn't read.
    Session(SessionError),
}

/// Why a session doesn't answer.
#[derive(Clone, PartialEq, Eq, Debug)]
#[non_exhaustive]
pub enum SessionError {
    /// The package was built without the library, and no variable names the program.
    NoLibrary,
    /// The program can't be started.
    NotStarted {
        /// Its name, as the variable has it.
        program: String,
        /// Why.
        error: String,
    },
    /// There is no memory for a session.
    OutOfMemory,
    /// The library that is linked has this version, and the package is for another.
    Version(u32),
    /// The session is gone: the process that it was has ended, or a pipe to it is broken.
    Gone(String),
    /// This line isn't one of the grammar: it has what the grammar has no words for, as a path with more than 255 places for arguments that
    /// aren't those of its segments, or the library is of another version than the package.
    BadLine(String),
    /// This is no answer to what was asked: the library is of another version than the package.
    BadAnswer(String),
}

/// What a call returns that may fail.
pub type Result<T> = std::result::Result<T, HirError>;

impl fmt::Display for SessionError {
    fn fmt(&self, f: &mut fmt::Formatter<'_>) -> fmt::Result {
        match self {
            SessionError::NoLibrary => write!(
                f,
                "the package was built without the library hir_c, and HIR_ASK_PROGRAM doesn't name the program hir_ask"
            ),
            SessionError::NotStarted { program, error } => {
                write!(f, "the program {program} can't be started: {error}")
            }
            SessionError::OutOfMemory => write!(f, "there is no memory for a session"),
            SessionError::Version(version) => {
                write!(f, "the library that is linked has version {version}, which isn't this package's")
            }
            SessionError::Gone(why) => write!(f, "the session is gone: {why}"),
            SessionError::BadLine(line) => write!(f, "the line {line:?} isn't one of the grammar"),
            SessionError::BadAnswer(answer) => {
                write!(f, "{answer:?} is no answer to what was asked")
            }
        }
    }
}

impl Error for SessionError {}

/// What is wrong, in a sentence.
impl fmt::Display for HirError {
    fn fmt(&self, f: &mut fmt::Formatter<'_>) -> fmt::Result {
        match self {
            HirError::Store(fault) => fmt::Display::fmt(fault, f),
            HirError::Body(fault) => fmt::Display::fmt(fault, f),
            HirError::Signature(fault) => fmt::Display::fmt(fault, f),
            HirError::Rename(fault) => fmt::Display::fmt(fault, f),
            HirError::Missing(missing) => fmt::Display::fmt(missing, f),
            HirError::UnknownId => write!(f, "an id isn't in the store, or the store is no body's"),
            HirError::Unreached => write!(f, "the expression has no scope"),
            HirError::NotAClosure => {
                write!(f, "the expression isn't a closure that the body reaches")
            }
            HirError::Full => write!(f, "more scopes or entries are needed than can be numbered"),
            HirError::OutOfMemory => write!(f, "out of memory"),
            HirError::OtherBatch => write!(f, "the question is one of another batch"),
            HirError::Session(error) => fmt::Display::fmt(error, f),
        }
    }
}

impl Error for HirError {
    fn source(&self) -> Option<&(dyn Error + 'static)> {
        match self {
            HirError::Store(fault) => Some(fault),
            HirError::Body(fault) => Some(fault),
            HirError::Signature(fault) => Some(fault),
            HirError::Rename(fault) => Some(fault),
            HirError::Missing(missing) => Some(missing),
            HirError::Session(error) => Some(error),
            HirError::UnknownId
            | HirError::Unreached
            | HirError::NotAClosure
            | HirError::Full
            | HirError::OutOfMemory
            | HirError::OtherBatch => None,
        }
    }
}

macro_rules! from_faults {
    ($($variant:ident($fault:ident))*) => {$(
        impl From<$fault> for HirError {
            fn from(fault: $fault) -> HirError {
                HirError::$variant(fault)
            }
        }
    )*};
}

from_faults! {
    Store(FinishFault) Body(BodyFault) Signature(SignatureFault) Rename(RenameFault) Missing(Missing) Session(SessionError)
}

impl HirError {
    /// The error of a refusal to a question.
    pub(crate) fn of_refusal(text: &str) -> HirError {
        match text {
            "unknown" => return HirError::UnknownId,
            "unreached" => return HirError::Unreached,
            "NotAClosure" => return HirError::NotAClosure,
            "Full" => return HirError::Full,
            "Memory" => return HirError::OutOfMemory,
            _ => {}
        }
        if let Some(missing) = Missing::from_text(text) {
            return HirError::Missing(missing);
        }
        match RenameFault::from_text(text) {
            Some(fault) => HirError::Rename(fault),
            None => HirError::bad_answer(text),
        }
    }

    /// The error of an answer that isn't one to what was asked.
    pub(crate) fn bad_answer(text: &str) -> HirError {
        HirError::Session(SessionError::BadAnswer(String::from(text)))
    }
}
