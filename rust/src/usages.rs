//! The uses of a body's variables: where each is used, and whether it may get another name.

use crate::body::Body;
use crate::error::{HirError, Result};
use crate::ids::{BindingId, Id};
use crate::lines::Answer;
use crate::name::Name;
use crate::notation::Words;
use crate::query::{questions, read_answer, read_ids, read_words, Query};
use crate::store::ExprOrPatId;
use crate::tables::{Edition, Tables};
use std::collections::HashMap;
use std::error::Error;
use std::fmt;

/// A use: an expression that is a path of one name, or such a path in the target of an assignment.
#[derive(Clone, Copy, PartialEq, Eq, Hash, Debug)]
#[cfg_attr(hir_serde, derive(serde::Serialize, serde::Deserialize))]
pub struct Usage {
    /// The path.
    pub path: ExprOrPatId,
    /// The binding that it resolves to; `None` where it resolves to no local variable.
    pub binding: Option<BindingId>,
}

/// Why a binding may not get a name: the first reason, and of the last two that of the first use in the order of the walk over the body.
#[derive(Clone, Copy, PartialEq, Eq, Hash, Debug)]
#[cfg_attr(hir_serde, derive(serde::Serialize, serde::Deserialize))]
pub enum RenameFault {
    /// No scope of the body has an entry of the binding.
    NotBound,
    /// The binding is the self parameter, or the new name is `self`.
    IsSelf,
    /// Another binding of the new name is bound in one frame with it, as `b` is in `(a, b)`.
    SameFrame {
        /// The other binding.
        other: BindingId,
    },
    /// A use of the binding would resolve to another one.
    Hidden {
        /// The use.
        usage: ExprOrPatId,
        /// The binding that it would resolve to.
        by: BindingId,
    },
    /// A use of another binding, or of none, would resolve to this one.
    Captures {
        /// The use.
        usage: ExprOrPatId,
        /// The binding that it resolves to now; `None` where it resolves to no local variable.
        was: Option<BindingId>,
    },
}

/// The reason in words, with ids.
impl fmt::Display for RenameFault {
    fn fmt(&self, f: &mut fmt::Formatter<'_>) -> fmt::Result {
        match self {
            RenameFault::NotBound => write!(f, "the body doesn't bind it"),
            RenameFault::IsSelf => write!(f, "`self` has no other name, and is none of another"),
            RenameFault::SameFrame { other } => {
                write!(f, "{other} of the new name is bound beside it")
            }
            RenameFault::Hidden { usage, by } => {
                write!(f, "its use {usage} would resolve to {by}")
            }
            RenameFault::Captures {
                usage,
                was: Some(was),
            } => write!(f, "{usage} resolves to {was}, and would resolve to it"),
            RenameFault::Captures { usage, was: None } => {
                write!(
                    f,
                    "{usage} resolves to no variable, and would resolve to it"
                )
            }
        }
    }
}

impl Error for RenameFault {}

/// The uses of a body: one list, asked once.
///
/// ```
/// use hir_expr_store::{ExpressionStoreBuilder, FunctionId, make};
///
/// # fn main() -> Result<(), hir_expr_store::HirError> {
/// // fn f(x, y) { (x, z, x, ) }
/// let mut builder = ExpressionStoreBuilder::new();
/// let params = [make::bind(&mut builder, "x"), make::bind(&mut builder, "y")];
/// let paths = ["x", "z", "x"].map(|name| make::local(&mut builder, name));
/// let root = make::tuple(&mut builder, &paths);
/// let body = make::body(FunctionId::from_raw(0), builder, &params, root)?;
///
/// let usages = body.usages()?;
/// assert_eq!(usages.of(body.bound_by(params[0]).unwrap()), [paths[0].into(), paths[2].into()]);
/// assert_eq!(usages.unresolved(), [paths[1].into()]);
/// assert_eq!(usages.unused(), [body.bound_by(params[1]).unwrap()]);
/// # Ok(())
/// # }
/// ```
#[derive(Clone, PartialEq, Eq, Debug)]
pub struct Usages {
    all: Vec<Usage>,
    of: HashMap<BindingId, Vec<ExprOrPatId>>,
    unresolved: Vec<ExprOrPatId>,
    unused: Vec<BindingId>,
}

impl Usages {
    fn new(usages: Vec<Usage>, unused: Vec<BindingId>) -> Usages {
        let mut of: HashMap<BindingId, Vec<ExprOrPatId>> = HashMap::new();
        let mut unresolved = Vec::new();
        for usage in &usages {
            match usage.binding {
                Some(binding) => of.entry(binding).or_default().push(usage.path),
                None => unresolved.push(usage.path),
            }
        }
        Usages {
            all: usages,
            of,
            unresolved,
            unused,
        }
    }

    /// All uses, in the order of the walk that makes scopes.
    pub fn iter(&self) -> std::slice::Iter<'_, Usage> {
        self.all.iter()
    }

    /// The uses that resolve to a binding.
    pub fn of(&self, binding: BindingId) -> &[ExprOrPatId] {
        self.of.get(&binding).map_or(&[], Vec::as_slice)
    }

    /// The uses that resolve to no variable.
    pub fn unresolved(&self) -> &[ExprOrPatId] {
        &self.unresolved
    }

    /// The bindings of the body that no use resolves to.
    pub fn unused(&self) -> &[BindingId] {
        &self.unused
    }
}

impl<'a> IntoIterator for &'a Usages {
    type Item = &'a Usage;
    type IntoIter = std::slice::Iter<'a, Usage>;

    fn into_iter(self) -> std::slice::Iter<'a, Usage> {
        self.iter()
    }
}

fn read_usages(text: &str) -> Option<Vec<Usage>> {
    read_words(text, read_usage)
}

fn usages_of(answers: &[Answer]) -> Result<Usages> {
    match answers {
        [usages, unused] => Ok(Usages::new(
            read_answer(read_usages, usages)?,
            read_answer(read_ids, unused)?,
        )),
        _ => Err(HirError::bad_answer("")),
    }
}

fn renamed_query(binding: BindingId, name: &Name, edition: Edition) -> Query<String> {
    Query::print("print-renamed", |line| {
        line.id(binding);
        line.name(name);
        line.word(edition.as_str());
    })
}

impl Body {
    /// The uses of the body.
    pub fn usages(&self) -> Result<Usages> {
        usages_of(&self.store().ask_lines("usages\nunused\n", 2)?)
    }

    /// The body as text in which the binding and its uses have a new name.
    pub fn renamed(
        &self,
        binding: BindingId,
        name: &Name,
        tables: &Tables,
        edition: Edition,
    ) -> Result<String> {
        self.store()
            .ask_with(tables, &renamed_query(binding, name, edition))
    }
}

questions! {
    { impl Body }

    /// The uses that get a new name together with their binding; `HirError::Rename` says why the binding may not have it.
    ///
    /// It may have it exactly where each use of the body would resolve afterwards to what it resolves to now, and no binding of one frame
    /// with it has the same name. Whether the name is a keyword or that of an item is for the caller to see to.
    fn rename(&self, binding: BindingId, name: &Name) -> Vec<ExprOrPatId> {
        Query::of(
            "rename",
            |line| {
                line.id(binding);
                line.name(name);
            },
            read_paths,
        )
    }

    /// The variables from outside that a closure's code uses, in the order of their first use.
    fn captures(&self, closure: crate::ids::ExprId) -> Vec<BindingId> {
        Query::id("captures", closure, read_ids)
    }
}

/// The questions on uses, each by itself.
impl crate::batch::Batch<'_> {
    /// The uses of the body, each with the binding that it resolves to, in the order of the walk that makes scopes.
    pub fn usages(&mut self) -> crate::batch::Question<Vec<Usage>> {
        self.push(&Query::new("usages", read_usages))
    }

    /// The uses that resolve to a binding.
    pub fn usages_of(&mut self, binding: BindingId) -> crate::batch::Question<Vec<ExprOrPatId>> {
        self.push(&Query::id("usages-of", binding, read_paths))
    }

    /// The uses that resolve to no variable.
    pub fn unresolved(&mut self) -> crate::batch::Question<Vec<ExprOrPatId>> {
        self.push(&Query::new("unresolved", read_paths))
    }

    /// The bindings of the body that no use resolves to.
    pub fn unused(&mut self) -> crate::batch::Question<Vec<BindingId>> {
        self.push(&Query::new("unused", read_ids))
    }

    /// The body as text in which the binding and its uses have a new name.
    pub fn renamed(
        &mut self,
        binding: BindingId,
        name: &Name,
        edition: Edition,
    ) -> crate::batch::Question<String> {
        self.push(&renamed_query(binding, name, edition))
    }
}

fn read_path(words: &mut Words<'_>) -> Option<ExprOrPatId> {
    if words.eat("expr:") {
        return Some(ExprOrPatId::ExprId(words.id()?));
    }
    words.expect("pat:")?;
    Some(ExprOrPatId::PatId(words.id()?))
}

fn read_paths(text: &str) -> Option<Vec<ExprOrPatId>> {
    read_words(text, read_path)
}

/// A number, or `none`.
fn read_id_or_none<I: Id>(words: &mut Words<'_>) -> Option<Option<I>> {
    if words.eat("none") {
        return Some(None);
    }
    Some(Some(words.id()?))
}

fn read_usage(words: &mut Words<'_>) -> Option<Usage> {
    let path = read_path(words)?;
    words.expect("=")?;
    let binding = read_id_or_none(words)?;
    Some(Usage { path, binding })
}

/// A use and, after a space, what is read of the rest, in parentheses.
fn read_conflict<'a, T>(
    words: &mut Words<'a>,
    read: fn(&mut Words<'a>) -> Option<T>,
) -> Option<(ExprOrPatId, T)> {
    words.expect("(")?;
    let usage = read_path(words)?;
    words.expect(" ")?;
    let other = read(words)?;
    words.expect(")")?;
    Some((usage, other))
}

impl RenameFault {
    /// The fault of this text.
    pub(crate) fn from_text(text: &str) -> Option<RenameFault> {
        let mut words = Words::new(text);
        let words = &mut words;
        let fault = match words.keyword() {
            "NotBound" => RenameFault::NotBound,
            "IsSelf" => RenameFault::IsSelf,
            "SameFrame" => {
                words.expect("(")?;
                let other = words.id()?;
                words.expect(")")?;
                RenameFault::SameFrame { other }
            }
            "Hidden" => {
                let (usage, by) = read_conflict(words, Words::id)?;
                RenameFault::Hidden { usage, by }
            }
            "Captures" => {
                let (usage, was) = read_conflict(words, read_id_or_none)?;
                RenameFault::Captures { usage, was }
            }
            _ => return None,
        };
        words.is_end().then_some(fault)
    }
}

#[cfg(test)]
mod tests {
    use super::RenameFault;
    use crate::ids::{BindingId, ExprId, PatId};
    use crate::store::ExprOrPatId;

    #[test]
    fn faults_are_read() {
        let expr = ExprOrPatId::ExprId(ExprId::from_raw(4));
        let pat = ExprOrPatId::PatId(PatId::from_raw(2));
        let one = BindingId::from_raw(1);
        let texts = [
            ("NotBound", RenameFault::NotBound),
            ("IsSelf", RenameFault::IsSelf),
            ("SameFrame(1)", RenameFault::SameFrame { other: one }),
            (
                "Hidden(expr:4 1)",
                RenameFault::Hidden {
                    usage: expr,
                    by: one,
                },
            ),
            (
                "Captures(pat:2 1)",
                RenameFault::Captures {
                    usage: pat,
                    was: Some(one),
                },
            ),
            (
                "Captures(expr:4 none)",
                RenameFault::Captures {
                    usage: expr,
                    was: None,
                },
            ),
        ];
        for (text, fault) in texts {
            assert_eq!(RenameFault::from_text(text), Some(fault), "{text}");
        }
        for text in [
            "",
            "NotBound ",
            "SameFrame()",
            "Hidden(expr:4)",
            "Hidden(expr:4 none)",
            "unknown",
        ] {
            assert_eq!(RenameFault::from_text(text), None, "{text}");
        }
    }
}
