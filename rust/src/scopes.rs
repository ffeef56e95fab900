//! The scopes of a body or a store: which names an expression sees, and what they resolve to.

use crate::error::{HirError, Result};
use crate::hir::{Expr, Pat, Path, PathKind};
use crate::ids::{BindingId, BlockId, ExprId, LabelId, MacroDefId, PatId};
use crate::name::{HygieneId, Name};
use crate::notation::{Notation, Words};
use crate::query::{questions, read_ids, read_names, read_opt_id, read_words, Query};
use crate::store::{ExprOrPatId, ExpressionStore};
use std::borrow::Cow;

/// A scope of a chain: what it is the scope of, and what it binds.
#[derive(Clone, PartialEq, Eq, Debug, Default)]
#[cfg_attr(hir_serde, derive(serde::Serialize, serde::Deserialize))]
pub struct Frame {
    /// The block with items of its own.
    pub block: Option<BlockId>,
    /// The label of the block or loop.
    pub label: Option<LabelId>,
    /// The macro that is defined there.
    pub macro_def: Option<MacroDefId>,
    /// The variables, in the order in which a name is looked for among them.
    pub entries: Vec<ScopeEntry>,
}

/// A variable in a scope.
#[derive(Clone, PartialEq, Eq, Hash, Debug)]
#[cfg_attr(hir_serde, derive(serde::Serialize, serde::Deserialize))]
pub struct ScopeEntry {
    /// Its name.
    pub name: Name,
    /// Its binding.
    pub binding: BindingId,
    /// The hygiene of its name.
    pub hygiene: HygieneId,
}

/// An expansion of a macro that a body defines: a name of its hygiene may also resolve where the macro is defined.
#[derive(Clone, Copy, PartialEq, Eq, Hash, Debug)]
#[cfg_attr(hir_serde, derive(serde::Serialize, serde::Deserialize))]
pub struct Expansion {
    /// The macro.
    pub macro_def: MacroDefId,
    /// The hygiene of the names of the expansion.
    pub hygiene: HygieneId,
    /// The hygiene that these names have in the macro's definition.
    pub parent: HygieneId,
}

/// How many scopes and entries there are.
#[derive(Clone, Copy, Debug)]
pub(crate) struct ScopeCounts {
    scopes: usize,
    entries: usize,
}

/// The scopes of a body, or of a store that is no body's: made once, by the library, and kept in the session.
///
/// ```
/// use hir_expr_store::hir::Mutability;
/// use hir_expr_store::{ExpressionStoreBuilder, FunctionId, HygieneId, make};
///
/// # fn main() -> Result<(), hir_expr_store::HirError> {
/// // fn f(x) { let x = &x; x }
/// let mut builder = ExpressionStoreBuilder::new();
/// let param = make::bind(&mut builder, "x");
/// let outer = make::local(&mut builder, "x");
/// let value = make::reference(&mut builder, outer, Mutability::Shared);
/// let shadow = make::bind(&mut builder, "x");
/// let inner = make::local(&mut builder, "x");
/// let root = make::block(&mut builder, vec![make::let_(shadow, value)], inner);
/// let body = make::body(FunctionId::from_raw(0), builder, &[param], root)?;
///
/// let scopes = body.scopes()?;
/// assert_eq!(scopes.binding_at(outer)?, body.bound_by(param));
/// assert_eq!(scopes.binding_at(inner)?, body.bound_by(shadow));
/// assert_eq!(scopes.resolve(inner, &"y".into(), HygieneId::ROOT)?, None);
/// assert_eq!(scopes.chain(inner)?, ["x".into(), "x".into()]);
/// # Ok(())
/// # }
/// ```
#[derive(Clone, Copy, Debug)]
pub struct ExprScopes<'a> {
    store: &'a ExpressionStore,
    counts: ScopeCounts,
}

fn read_counts(text: &str) -> Option<ScopeCounts> {
    let mut words = Words::new(text);
    let scopes = usize::try_from(words.big()?).ok()?;
    words.expect(" scopes ")?;
    let entries = usize::try_from(words.big()?).ok()?;
    words.expect(" entries")?;
    words.is_end().then_some(ScopeCounts { scopes, entries })
}

impl ExpressionStore {
    /// The scopes of the body that the store is of; of a store that is no body's, those that it has by itself.
    pub fn scopes(&self) -> Result<ExprScopes<'_>> {
        let counts = if let Some(counts) = self.scope_counts.get() {
            *counts
        } else {
            let counts = self.ask(&Query::new("scope-counts", read_counts))?;
            *self.scope_counts.get_or_init(|| counts)
        };
        Ok(ExprScopes {
            store: self,
            counts,
        })
    }
}

/// The name by which a path may resolve to a variable: that of a path of one name without arguments, and `self` for the path `self`.
fn local_name(path: &Path) -> Option<Cow<'_, Name>> {
    match path {
        Path::BarePath(path) if path.kind == PathKind::SELF && path.segments.is_empty() => {
            Some(Cow::Owned(Name::new("self")))
        }
        Path::BarePath(path) => path.as_ident().map(Cow::Borrowed),
        Path::Normal(_) | Path::LangItem(..) => None,
    }
}

impl<'a> ExprScopes<'a> {
    fn ask<T>(&self, query: &Query<T>) -> Result<T> {
        self.store.ask(query)
    }

    /// The store whose scopes these are.
    pub fn store(&self) -> &'a ExpressionStore {
        self.store
    }

    /// How many scopes there are.
    pub fn scope_count(&self) -> usize {
        self.counts.scopes
    }

    /// How many entries all scopes have.
    pub fn entry_count(&self) -> usize {
        self.counts.entries
    }

    /// What a path of this hygiene resolves to at an expression.
    fn resolve_path(
        &self,
        at: ExprId,
        path: &Path,
        hygiene: HygieneId,
    ) -> Result<Option<BindingId>> {
        let Some(name) = local_name(path) else {
            return Ok(None);
        };
        match self.resolve(at, &name, hygiene) {
            Err(HirError::Unreached) => Ok(None),
            other => other,
        }
    }

    /// The binding that an expression resolves to: where it exists, has a scope, and is a path of one name, or `self`, that resolves in it.
    pub fn binding_at(&self, expr: ExprId) -> Result<Option<BindingId>> {
        match self.store.exprs().get(expr) {
            Some(Expr::Path(path)) => {
                let hygiene = self
                    .store
                    .expr_or_pat_path_hygiene(ExprOrPatId::ExprId(expr));
                self.resolve_path(expr, path, hygiene)
            }
            _ => Ok(None),
        }
    }

    /// The binding that a pattern in the target of an assignment resolves to, as `binding_at` says of an expression. It is looked up in the
    /// scope of the assignment, with the hygiene of the pattern.
    pub fn target_binding_at(&self, assignment: ExprId, pat: PatId) -> Result<Option<BindingId>> {
        match self.store.pats().get(pat) {
            Some(Pat::Path(path)) => {
                let hygiene = self.store.expr_or_pat_path_hygiene(ExprOrPatId::PatId(pat));
                self.resolve_path(assignment, path, hygiene)
            }
            _ => Ok(None),
        }
    }
}

fn resolve_query(
    word: &str,
    expr: ExprId,
    name: &Name,
    hygiene: HygieneId,
) -> Query<Option<BindingId>> {
    Query::of(
        word,
        |line| {
            line.id(expr);
            line.name(name);
            if !hygiene.is_root() {
                hygiene.write(line);
            }
        },
        read_opt_id,
    )
}

fn resolve_through_query(
    expr: ExprId,
    name: &Name,
    hygiene: HygieneId,
    expansions: &[Expansion],
) -> Query<Option<BindingId>> {
    Query::of(
        "resolve-through",
        |line| {
            line.id(expr);
            line.name(name);
            if !hygiene.is_root() {
                hygiene.write(line);
            }
            for expansion in expansions {
                line.prefixed_id("macro:", Some(expansion.macro_def));
                expansion.hygiene.write(line);
                expansion.parent.write(line);
            }
        },
        read_opt_id,
    )
}

questions! {
    { impl ExprScopes<'_> }

    /// What a name of this hygiene resolves to at an expression: a binding; `None` where it is no variable.
    fn resolve(&self, expr: ExprId, name: &Name, hygiene: HygieneId) -> Option<BindingId> {
        resolve_query("resolve", expr, name, hygiene)
    }

    /// The same through macros that the body defines: a name that an expansion wrote may resolve where its macro is defined. Of two
    /// expansions for one hygiene the later counts.
    fn resolve_through(
        &self,
        expr: ExprId,
        name: &Name,
        hygiene: HygieneId,
        expansions: &[Expansion]
    ) -> Option<BindingId> {
        resolve_through_query(expr, name, hygiene, expansions)
    }

    /// The names along the chain of an expression's scope, innermost first.
    fn chain(&self, expr: ExprId) -> Vec<Name> {
        Query::id("chain", expr, read_names)
    }

    /// The scopes along the chain of an expression's scope, innermost first.
    fn frames(&self, expr: ExprId) -> Vec<Frame> {
        Query::id("frames", expr, read_frames)
    }

    /// The variables that a name at an expression may resolve to, innermost first: of each name and hygiene the one that isn't hidden.
    fn visible_names(&self, expr: ExprId) -> Vec<ScopeEntry> {
        Query::id("visible", expr, |text| read_words(text, read_entry))
    }

    /// The expressions that have a scope: those that the body, or the store, reaches.
    fn scoped_exprs(&self) -> Vec<ExprId> {
        Query::new("scoped", read_ids)
    }
}

fn read_entry(words: &mut Words<'_>) -> Option<ScopeEntry> {
    let name = words.name()?;
    words.expect("=")?;
    let binding = words.id()?;
    let hygiene = if words.eat("@") {
        HygieneId::expansion(words.number()?)
    } else {
        HygieneId::ROOT
    };
    Some(ScopeEntry {
        name,
        binding,
        hygiene,
    })
}

/// What a frame has in the word that comes next.
fn read_in_frame(words: &mut Words<'_>, frame: &mut Frame) -> Option<()> {
    if words.eat("block:") {
        frame.block = Some(words.id()?);
    } else if words.eat("label:") {
        frame.label = Some(words.id()?);
    } else if words.eat("macro:") {
        frame.macro_def = Some(words.id()?);
    } else if !words.eat(".") {
        frame.entries.push(read_entry(words)?);
    }
    Some(())
}

fn read_frames(text: &str) -> Option<Vec<Frame>> {
    let mut words = Words::new(text);
    let mut frames = vec![Frame::default()];
    while !words.is_end() {
        words.begin()?;
        if words.eat("/") {
            frames.push(Frame::default());
        } else {
            read_in_frame(&mut words, frames.last_mut()?)?;
        }
    }
    Some(frames)
}
