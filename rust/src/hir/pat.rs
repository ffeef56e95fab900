//! Patterns.

use super::{Mutability, Path, RangeOp};
use crate::ids::{BindingId, ExprId, PatId};
use crate::name::Name;

/// A field of a record pattern.
#[derive(Clone, PartialEq, Eq, Debug)]
#[cfg_attr(hir_serde, derive(serde::Serialize, serde::Deserialize))]
pub struct RecordFieldPat {
    /// Its name.
    pub name: Name,
    /// The pattern that its value matches.
    pub pat: PatId,
}

/// A pattern.
#[derive(Clone, PartialEq, Eq, Debug)]
#[cfg_attr(hir_serde, derive(serde::Serialize, serde::Deserialize))]
pub enum Pat {
    /// Nothing was there.
    Missing,
    /// `..`
    Rest,
    /// `_`
    Wild,
    /// `!null`
    NotNull,
    /// `(a, b)`
    Tuple {
        /// The members.
        args: Vec<PatId>,
        /// The place of `..` among them, if there is one.
        ellipsis: Option<u32>,
    },
    /// `a | b`
    Or(Vec<PatId>),
    /// `S { a: b }`
    Record {
        /// What it is a record of.
        path: Path,
        /// Its fields.
        args: Vec<RecordFieldPat>,
        /// Whether `..` comes last.
        ellipsis: bool,
    },
    /// `a..=b`
    Range {
        /// The least value.
        start: Option<ExprId>,
        /// The end.
        end: Option<ExprId>,
        /// Whether the end is left out.
        range_type: RangeOp,
    },
    /// `[a, .., b]`
    Slice {
        /// The first items.
        prefix: Vec<PatId>,
        /// What is between the first items and the last.
        slice: Option<PatId>,
        /// The last items.
        suffix: Vec<PatId>,
    },
    /// A constant, or a variant without fields. On the left of an assignment it may also be a variable, as the `a` of `(a, b) = c`.
    Path(Path),
    /// A literal, as the `1` and the `-2` of `match x { 1 | -2 => .. }`, with the sign of a negative number in it.
    Lit(ExprId),
    /// An expression that is assigned to: only on the left of an assignment, in the pattern that is its `target`.
    Expr(ExprId),
    /// A variable.
    Bind {
        /// The binding that it brings into scope.
        id: BindingId,
        /// The pattern behind `@`.
        subpat: Option<PatId>,
    },
    /// `S(a, b)`
    TupleStruct {
        /// What it is a tuple of.
        path: Path,
        /// The members.
        args: Vec<PatId>,
        /// The place of `..` among them, if there is one.
        ellipsis: Option<u32>,
    },
    /// `&a`
    Ref {
        /// What it refers to.
        pat: PatId,
        /// Whether it is `&mut`.
        mutability: Mutability,
    },
    /// `box a`
    Box {
        /// What is in the box.
        inner: PatId,
    },
    /// `deref!(a)`
    Deref {
        /// What is behind the pointer.
        inner: PatId,
    },
}

impl Pat {
    /// The patterns that this one names, in their order.
    pub fn child_pats(&self) -> Vec<PatId> {
        match self {
            Pat::Missing
            | Pat::Rest
            | Pat::Wild
            | Pat::NotNull
            | Pat::Range { .. }
            | Pat::Path(_)
            | Pat::Lit(_)
            | Pat::Expr(_) => Vec::new(),
            Pat::Tuple { args, .. } | Pat::Or(args) | Pat::TupleStruct { args, .. } => args.clone(),
            Pat::Record { args, .. } => args.iter().map(|field| field.pat).collect(),
            Pat::Slice {
                prefix,
                slice,
                suffix,
            } => prefix.iter().chain(slice).chain(suffix).copied().collect(),
            Pat::Bind { subpat, .. } => subpat.iter().copied().collect(),
            Pat::Ref { pat, .. } => vec![*pat],
            Pat::Box { inner } | Pat::Deref { inner } => vec![*inner],
        }
    }
}
