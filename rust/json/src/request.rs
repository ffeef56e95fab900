//! What is asked: a body or a store, definitions, lines, and questions.

use hir_expr_store::{
    BindingId, DefWithBodyId, Edition, ExprId, ExpressionStore, HygieneId, Name, NamedDef, NodeId,
    PatId,
};
use serde::Deserialize;

/// A request. Its parts are done in this order; those that are left out aren't. What was made stays for the requests after it.
#[derive(Deserialize)]
#[serde(deny_unknown_fields)]
pub struct Request {
    /// A new store, tested by `finish`.
    pub store: Option<ExpressionStore>,
    /// Makes the store a body.
    pub body: Option<BodyParts>,
    /// Names of definitions; null for one that has none.
    #[serde(default)]
    pub names: Vec<(NamedDef, Option<Name>)>,
    /// Lines of a session beside the store's, as `crates/hir_text/CALLING.md` describes them.
    pub lines: Option<String>,
    /// The questions.
    #[serde(default)]
    pub ask: Vec<Question>,
}

/// What a body has beside its store.
#[derive(Deserialize)]
#[serde(deny_unknown_fields)]
pub struct BodyParts {
    /// Whose body it is.
    pub def: DefWithBodyId,
    /// The patterns of the parameters.
    #[serde(default)]
    pub params: Vec<PatId>,
    /// The binding of `self`.
    pub self_param: Option<BindingId>,
}

const fn latest() -> Edition {
    Edition::Edition2021
}

/// A question on the store or the body, named as the call of the package `hir-expr-store`.
#[derive(Deserialize)]
#[serde(rename_all = "snake_case", deny_unknown_fields)]
pub enum Question {
    /// The child expressions.
    Children(ExprId),
    /// The child expressions, but for those of patterns.
    ChildrenWithoutPats(ExprId),
    /// The children, in the order of a visitor.
    VisitExpr(ExprId),
    /// The children, in the order of a visitor.
    VisitPat(PatId),
    /// A pattern and its descendants.
    WalkPats(PatId),
    /// The bindings in a pattern.
    BindingsInPat(PatId),
    /// The expressions in a pattern.
    ExprsInPat(PatId),
    /// The root.
    RootForExpr(ExprId),
    /// The parent.
    Parent(NodeId),
    /// The ancestors, innermost first.
    Ancestors(NodeId),
    /// The nearest closure around an expression.
    EnclosingClosure(ExprId),
    /// The nearest loop around an expression.
    EnclosingLoop(ExprId),
    /// What a `break` leaves, or a `continue` goes on with.
    JumpTarget(ExprId),
    /// How tightly an expression holds together.
    Precedence(ExprId),
    /// What a name resolves to at an expression.
    Resolve {
        /// The expression.
        expr: ExprId,
        /// The name.
        name: Name,
        /// Its hygiene.
        #[serde(default)]
        hygiene: HygieneId,
    },
    /// What a path resolves to.
    BindingAt(ExprId),
    /// The names along the chain, innermost first.
    Chain(ExprId),
    /// The scopes along the chain, innermost first.
    Frames(ExprId),
    /// The entries that a name may resolve to.
    VisibleNames(ExprId),
    /// What a closure captures.
    Captures(ExprId),
    /// The uses of the body.
    Usages,
    /// The uses that resolve to no variable.
    Unresolved,
    /// The bindings that nothing uses.
    Unused,
    /// The uses of a binding.
    UsagesOf(BindingId),
    /// The uses that get a new name together with a binding.
    Rename {
        /// The binding.
        binding: BindingId,
        /// The name.
        name: Name,
    },
    /// The text of the body with the new name.
    Renamed {
        /// The binding.
        binding: BindingId,
        /// The name.
        name: Name,
        /// The edition of the text.
        #[serde(default = "latest")]
        edition: Edition,
    },
    /// The body as text.
    Print {
        /// The edition of the text.
        #[serde(default = "latest")]
        edition: Edition,
    },
    /// An expression as text.
    PrintExpr {
        /// The expression.
        expr: ExprId,
        /// The edition of the text.
        #[serde(default = "latest")]
        edition: Edition,
    },
    /// A pattern as text.
    PrintPat {
        /// The pattern.
        pat: PatId,
        /// The edition of the text.
        #[serde(default = "latest")]
        edition: Edition,
    },
    /// The store as data.
    Store,
}
