//! The store that the proved `finish` accepted, and the questions on its nodes.

use crate::arena::Arena;
use crate::error::{HirError, Result};
use crate::fault::NodeId;
use crate::hir::{
    Binding, Expr, GenericArgs, Label, LifetimeRef, Literal, Pat, Path, PathId, TraitBoundModifier,
    TypeBound, TypeRef,
};
use crate::ids::{BindingId, BlockId, ExprId, Id, LabelId, LifetimeRefId, PatId, TypeRefId};
use crate::lines::Answer;
use crate::link::{Link, Tail};
use crate::name::HygieneId;
use crate::nodes::Nodes;
use crate::notation::{Line, Notation, Words};
use crate::prec::ExprPrecedence;
use crate::query::{
    questions, read_answer, read_bool, read_id, read_ids, read_opt, read_opt_id, read_text,
    read_words, Query,
};
use crate::scopes::ScopeCounts;
use crate::tables::{Edition, Tables};
use std::fmt;
use std::ops::Index;
use std::sync::OnceLock;

/// An expression or a pattern.
#[derive(Clone, Copy, PartialEq, Eq, PartialOrd, Ord, Hash, Debug)]
#[cfg_attr(hir_serde, derive(serde::Serialize, serde::Deserialize))]
pub enum ExprOrPatId {
    /// An expression.
    ExprId(ExprId),
    /// A pattern.
    PatId(PatId),
}

impl From<ExprId> for ExprOrPatId {
    fn from(id: ExprId) -> ExprOrPatId {
        ExprOrPatId::ExprId(id)
    }
}

impl From<PatId> for ExprOrPatId {
    fn from(id: PatId) -> ExprOrPatId {
        ExprOrPatId::PatId(id)
    }
}

/// The id, as `ExprId(3)`.
impl fmt::Display for ExprOrPatId {
    fn fmt(&self, f: &mut fmt::Formatter<'_>) -> fmt::Result {
        match self {
            ExprOrPatId::ExprId(id) => fmt::Display::fmt(id, f),
            ExprOrPatId::PatId(id) => fmt::Display::fmt(id, f),
        }
    }
}

/// The child of a node, as a visitor gets it.
#[derive(Clone, Copy, PartialEq, Eq, Hash, Debug)]
#[cfg_attr(hir_serde, derive(serde::Serialize, serde::Deserialize))]
pub enum Child {
    /// An expression.
    Expr(ExprId),
    /// An expression that sees no local variables.
    AnonConst(ExprId),
    /// A pattern.
    Pat(PatId),
    /// A type.
    Type(TypeRefId),
    /// A lifetime.
    Lifetime(LifetimeRefId),
}

/// Reads of the nodes, of a builder and of a store alike.
macro_rules! reads {
    () => {
        /// The expressions.
        pub fn exprs(&self) -> &Arena<ExprId, Expr> {
            &self.nodes.exprs
        }

        /// The patterns.
        pub fn pats(&self) -> &Arena<PatId, Pat> {
            &self.nodes.pats
        }

        /// The bindings.
        pub fn bindings(&self) -> &Arena<BindingId, Binding> {
            &self.nodes.bindings
        }

        /// The labels.
        pub fn labels(&self) -> &Arena<LabelId, Label> {
            &self.nodes.labels
        }

        /// The types.
        pub fn types(&self) -> &Arena<TypeRefId, TypeRef> {
            &self.nodes.types
        }

        /// The lifetimes.
        pub fn lifetimes(&self) -> &Arena<LifetimeRefId, LifetimeRef> {
            &self.nodes.lifetimes
        }

        /// The roots, in their order.
        pub fn expr_roots(&self) -> &[ExprId] {
            &self.nodes.roots
        }

        /// The blocks that may hold items, in their order.
        pub fn block_scopes(&self) -> &[BlockId] {
            &self.nodes.block_scopes
        }

        /// The closure, coroutine or anonymous constant that owns a binding; `None` where the body itself does.
        pub fn binding_owner(&self, binding: BindingId) -> Option<ExprId> {
            self.nodes.binding_owners.get(&binding).copied()
        }

        /// The hygiene of the path that the expression or the pattern is.
        pub fn expr_or_pat_path_hygiene(&self, id: ExprOrPatId) -> HygieneId {
            self.nodes.hygiene.get(&id).copied().unwrap_or_default()
        }

        /// The lines that make it, as `crates/hir_text/CALLING.md` of the repository describes them.
        pub fn to_lines(&self) -> String {
            self.nodes.to_lines()
        }
    };
}
pub(crate) use reads;

/// A store that the proved `finish` accepted: its ids exist, no node has two parents or is under itself, and its roots are disjoint.
///
/// It holds its nodes, each once, and the session that has the store: a call that asks sends one line, and reads the answer.
///
/// ```
/// use hir_expr_store::{Edition, ExpressionStoreBuilder, NodeId, Tables, make};
///
/// # fn main() -> Result<(), hir_expr_store::HirError> {
/// let mut builder = ExpressionStoreBuilder::new();
/// let callee = make::local(&mut builder, "f");
/// let arg = make::int(&mut builder, 1);
/// let call = make::call(&mut builder, callee, &[arg]);
/// builder.push_root(call);
/// let store = builder.finish()?;
/// assert_eq!(store.children(call)?, [callee, arg]);
/// assert_eq!(store.parent(NodeId::Expr(arg))?, Some(NodeId::Expr(call)));
/// assert_eq!(store.root_for_expr(arg)?, call);
/// assert_eq!(store.print_expr(call, &Tables::new(), Edition::Edition2021)?, "f(\n    1,\n)");
/// # Ok(())
/// # }
/// ```
#[derive(Debug)]
pub struct ExpressionStore {
    pub(crate) nodes: Nodes,
    pub(crate) link: Link,
    /// The numbers of scopes and entries, once scopes were made.
    pub(crate) scope_counts: OnceLock<ScopeCounts>,
}

impl ExpressionStore {
    reads!();

    /// The answer to a question.
    pub(crate) fn ask<T>(&self, query: &Query<T>) -> Result<T> {
        self.link
            .ask_one(&self.nodes, &query.line, |is_refusal, text| {
                read_text(query.read, is_refusal, text)
            })?
    }

    /// The answer to a question that looks definitions up.
    pub(crate) fn ask_with<T>(&self, tables: &Tables, query: &Query<T>) -> Result<T> {
        let mut answers = self.link.ask_with(&self.nodes, tables, &[&query.line])?;
        match answers.pop() {
            Some(answer) => read_answer(query.read, &answer),
            None => Err(HirError::bad_answer("")),
        }
    }

    /// The answers to the questions of a text.
    pub(crate) fn ask_lines(&self, text: &str, count: usize) -> Result<Vec<Answer>> {
        self.link.ask(&self.nodes, text, count)
    }

    /// The answers to questions that look definitions up.
    pub(crate) fn ask_lines_with(&self, tables: &Tables, lines: &[&str]) -> Result<Vec<Answer>> {
        self.link.ask_with(&self.nodes, tables, lines)
    }

    /// Makes it that of an owner, or says why it isn't one's.
    pub(crate) fn claim(&mut self, tail: Tail, fault: fn(&str) -> HirError) -> Result<()> {
        self.link.claim(&self.nodes, tail, fault)?;
        // The scopes of an owner aren't those that its store had by itself.
        self.scope_counts = OnceLock::new();
        Ok(())
    }

    /// The lines that make it and what owns it.
    pub(crate) fn owned_lines(&self) -> String {
        let mut line = Line::new();
        self.nodes.write(&mut line);
        line.lines(self.link.tail());
        line.into_string()
    }

    /// An expression as text, in lines.
    pub fn print_expr(&self, expr: ExprId, tables: &Tables, edition: Edition) -> Result<String> {
        self.ask_with(tables, &print_expr(expr, edition))
    }

    /// A pattern as text, in lines.
    pub fn print_pat(&self, pat: PatId, tables: &Tables, edition: Edition) -> Result<String> {
        self.ask_with(tables, &print_pat(pat, false, edition))
    }

    /// A pattern as text, in one line.
    pub fn print_pat_oneline(
        &self,
        pat: PatId,
        tables: &Tables,
        edition: Edition,
    ) -> Result<String> {
        self.ask_with(tables, &print_pat(pat, true, edition))
    }

    /// A path over the types, lifetimes and constants of the store as text.
    pub fn print_path(&self, path: &Path, tables: &Tables, edition: Edition) -> Result<String> {
        self.ask_with(tables, &print_path(path, edition))
    }
}

pub(crate) fn print_expr(expr: ExprId, edition: Edition) -> Query<String> {
    Query::print("print-expr", |line| {
        line.id(expr);
        line.word(edition.as_str());
    })
}

pub(crate) fn print_pat(pat: PatId, is_oneline: bool, edition: Edition) -> Query<String> {
    Query::print("print-pat", |line| {
        line.id(pat);
        line.flag(is_oneline, "oneline");
        line.word(edition.as_str());
    })
}

pub(crate) fn print_path(path: &Path, edition: Edition) -> Query<String> {
    Query::print("print-path", |line| {
        path.write(line);
        line.word(edition.as_str());
    })
}

/// The stores have the same nodes, roots, owners, hygiene and sources.
impl PartialEq for ExpressionStore {
    fn eq(&self, other: &ExpressionStore) -> bool {
        self.nodes == other.nodes
    }
}

impl Eq for ExpressionStore {}

macro_rules! indexes {
    ($($id:ident, $node:ident, $arena:ident;)*) => {$(
        /// The node with this id, which has to exist.
        impl Index<$id> for ExpressionStore {
            type Output = $node;

            fn index(&self, id: $id) -> &$node {
                &self.nodes.$arena[id]
            }
        }
    )*};
}

indexes! {
    ExprId, Expr, exprs;
    PatId, Pat, pats;
    BindingId, Binding, bindings;
    LabelId, Label, labels;
    TypeRefId, TypeRef, types;
    LifetimeRefId, LifetimeRef, lifetimes;
}

questions! {
    { impl ExpressionStore }

    /// The child expressions of an expression: those of its patterns too.
    fn children(&self, expr: ExprId) -> Vec<ExprId> {
        Query::id("children", expr, read_ids)
    }

    /// The child expressions of an expression, but for those of its patterns.
    fn children_without_pats(&self, expr: ExprId) -> Vec<ExprId> {
        Query::id("children-without-pats", expr, read_ids)
    }

    /// The children of an expression, in the order in which a visitor gets them.
    fn visit_expr(&self, expr: ExprId) -> Vec<Child> {
        calls("expr:", expr)
    }

    /// The children of a pattern, in the order in which a visitor gets them.
    fn visit_pat(&self, pat: PatId) -> Vec<Child> {
        calls("pat:", pat)
    }

    /// The children of a type, in the order in which a visitor gets them.
    fn visit_type(&self, ty: TypeRefId) -> Vec<Child> {
        calls("type:", ty)
    }

    /// The children of a path, in the order in which a visitor gets them.
    fn visit_path(&self, path: &Path) -> Vec<Child> {
        Query::of("calls path", |line| path.write(line), read_children)
    }

    /// The children of generic arguments, in the order in which a visitor gets them.
    fn visit_generic_args(&self, args: &GenericArgs) -> Vec<Child> {
        Query::of("calls args ", |line| args.write(line), read_children)
    }

    /// The children of a bound, in the order in which a visitor gets them.
    fn visit_bound(&self, bound: &TypeBound) -> Vec<Child> {
        Query::of("calls bound ", |line| bound.write(line), read_children)
    }

    /// A pattern and all its descendants that are patterns, in preorder.
    fn walk_pats(&self, pat: PatId) -> Vec<PatId> {
        Query::id("walk-pats", pat, read_ids)
    }

    /// The patterns that are children of a pattern.
    fn walk_pats_shallow(&self, pat: PatId) -> Vec<PatId> {
        Query::id("walk-pats-shallow", pat, read_ids)
    }

    /// The patterns that a pattern names, in their order.
    fn child_pats(&self, pat: PatId) -> Vec<PatId> {
        Query::id("child-pats", pat, read_ids)
    }

    /// The bindings in a pattern.
    fn bindings_in_pat(&self, pat: PatId) -> Vec<BindingId> {
        Query::id("bindings-in", pat, read_ids)
    }

    /// The expressions in a pattern.
    fn exprs_in_pat(&self, pat: PatId) -> Vec<ExprId> {
        Query::id("exprs-in", pat, read_ids)
    }

    /// The root that an expression is under.
    fn root_for_expr(&self, expr: ExprId) -> ExprId {
        Query::of("root-of", |line| ExprOrPatId::ExprId(expr).write(line), read_id)
    }

    /// The root that a pattern is under.
    fn root_for_pat(&self, pat: PatId) -> ExprId {
        Query::of("root-of", |line| ExprOrPatId::PatId(pat).write(line), read_id)
    }

    /// The root that a binding is under.
    fn root_for_binding(&self, binding: BindingId) -> ExprId {
        Query::new(format!("root-of binding:{}", binding.into_raw()), read_id)
    }

    /// The parent of a node; `None` of a root, of a parameter, and of what is under neither.
    fn parent(&self, node: NodeId) -> Option<NodeId> {
        Query::of("node-parent", |line| node.write(line), |text| read_opt(text, NodeId::from_line))
    }

    /// The ancestors of a node, innermost first.
    fn ancestors(&self, node: NodeId) -> Vec<NodeId> {
        Query::of("ancestors", |line| node.write(line), |text| read_words(text, NodeId::read_word))
    }

    /// The nearest closure, of any kind, in whose code an expression is; `None` where it is in none, or in a constant or a type within it.
    fn enclosing_closure(&self, expr: ExprId) -> Option<ExprId> {
        Query::id("enclosing-closure", expr, read_opt_id)
    }

    /// The nearest loop in whose body an expression is; `None` where there is none before the nearest closure, constant or type around it.
    ///
    /// The condition of a `while` is in the body of its loop.
    fn enclosing_loop(&self, expr: ExprId) -> Option<ExprId> {
        Query::id("enclosing-loop", expr, read_opt_id)
    }

    /// The loop or labelled block that a `break` leaves, or the loop that a `continue` goes on with.
    ///
    /// `None` where there is none, and where the expression is no such jump.
    fn jump_target(&self, expr: ExprId) -> Option<ExprId> {
        Query::id("jump-target", expr, read_opt_id)
    }

    /// How tightly an expression holds together, as the parentheses around it depend on.
    fn precedence(&self, expr: ExprId) -> ExprPrecedence {
        Query::id("precedence", expr, ExprPrecedence::from_text)
    }

    /// The negative of the literal that an expression is; `None` where it isn't a signed number.
    fn negate(&self, expr: ExprId) -> Option<Literal> {
        Query::id("negate", expr, |text| read_opt(text, Literal::from_line))
    }

    /// Whether a type exists and is a path.
    fn has_path(&self, path: PathId) -> bool {
        Query::new(format!("has path:{}", path.type_ref().into_raw()), read_bool)
    }

    /// Whether a path may be in a node of the store: its ids exist, and its arguments have their shapes.
    fn path_is_sound(&self, path: &Path) -> bool {
        Query::of("sound", |line| path.write(line), read_bool)
    }

    /// The path of a bound, as the store has it, with its modifier; `None` where what the bound names isn't a path.
    fn bound_path(&self, bound: &TypeBound) -> Option<(Path, TraitBoundModifier)> {
        Query::of("bound-path ", |line| bound.write(line), |text| read_opt(text, read_bound_path))
    }

    /// The coroutine of a closure that makes coroutines: the expression just before it.
    fn coroutine_for_closure(&self, closure: ExprId) -> ExprId {
        Query::id("coroutine-for-closure", closure, read_id)
    }

    /// The closure that makes a coroutine: the expression just after it.
    fn closure_for_coroutine(&self, coroutine: ExprId) -> ExprId {
        Query::id("closure-for-coroutine", coroutine, read_id)
    }
}

/// The questions that print, with the tables of the batch.
impl crate::batch::Batch<'_> {
    /// An expression as text, in lines.
    pub fn print_expr(&mut self, expr: ExprId, edition: Edition) -> crate::batch::Question<String> {
        self.push(&print_expr(expr, edition))
    }

    /// A pattern as text, in lines.
    pub fn print_pat(&mut self, pat: PatId, edition: Edition) -> crate::batch::Question<String> {
        self.push(&print_pat(pat, false, edition))
    }

    /// A pattern as text, in one line.
    pub fn print_pat_oneline(
        &mut self,
        pat: PatId,
        edition: Edition,
    ) -> crate::batch::Question<String> {
        self.push(&print_pat(pat, true, edition))
    }

    /// A path over the types, lifetimes and constants of the store as text.
    pub fn print_path(&mut self, path: &Path, edition: Edition) -> crate::batch::Question<String> {
        self.push(&print_path(path, edition))
    }
}

/// The question on the children of a node.
fn calls<I: Id>(word: &str, id: I) -> Query<Vec<Child>> {
    Query::new(format!("calls {word}{}", id.into_raw()), read_children)
}

fn read_child(words: &mut Words<'_>) -> Option<Child> {
    let kind = words.keyword();
    words.expect(":")?;
    match kind {
        "expr" => Some(Child::Expr(words.id()?)),
        "const" => Some(Child::AnonConst(words.id()?)),
        "pat" => Some(Child::Pat(words.id()?)),
        "type" => Some(Child::Type(words.id()?)),
        "lifetime" => Some(Child::Lifetime(words.id()?)),
        _ => None,
    }
}

fn read_children(text: &str) -> Option<Vec<Child>> {
    read_words(text, read_child)
}

fn read_bound_path(text: &str) -> Option<(Path, TraitBoundModifier)> {
    let mut words = Words::new(text);
    let path = Path::read(&mut words)?;
    let modifier = if words.flag("maybe") {
        TraitBoundModifier::Maybe
    } else {
        TraitBoundModifier::None
    };
    words.is_end().then_some((path, modifier))
}
