//! The proved expression store, in hand from Rust.
//!
//! A store holds lowered function bodies: expressions, patterns, bindings, labels, types and lifetimes under numbered ids, under the names
//! of rust-analyzer's `hir_def`. What a store accepts, what a name resolves to, what a closure captures and how a node is printed is
//! computed by functions that are proved to meet their contracts, in a session that a store holds: a handle of the C library, or a process
//! of the program `hir_ask`. This package is tested, and not proved.
//!
//! The body of `fn f(x) { let x = &x; x }`, and what the last `x` resolves to:
//!
//! ```
//! use hir_expr_store::hir::Mutability;
//! use hir_expr_store::{Edition, ExpressionStoreBuilder, FunctionId, HirError, Tables, make};
//!
//! # fn main() -> Result<(), HirError> {
//! let mut builder = ExpressionStoreBuilder::new();
//! let param = make::bind(&mut builder, "x");
//! let outer = make::local(&mut builder, "x");
//! let value = make::reference(&mut builder, outer, Mutability::Shared);
//! let shadow = make::bind(&mut builder, "x");
//! let inner = make::local(&mut builder, "x");
//! let root = make::block(&mut builder, vec![make::let_(shadow, value)], inner);
//!
//! let f = FunctionId::from_raw(0);
//! let body = make::body(f, builder, &[param], root)?;
//! let scopes = body.scopes()?;
//! assert_eq!(scopes.binding_at(outer)?, body.bound_by(param));
//! assert_eq!(scopes.binding_at(inner)?, body.bound_by(shadow));
//!
//! let mut tables = Tables::new();
//! tables.add_name(f, Some(&"f".into()));
//! let text = body.print(&tables, Edition::Edition2021)?;
//! assert_eq!(text, "fn f(x) {\n    let x = &x;\n    x\n}");
//! # Ok(())
//! # }
//! ```
//!
//! | You want to | Use |
//! |---|---|
//! | build nodes | [`ExpressionStoreBuilder`] with the calls of [`make`] or the types of [`hir`] |
//! | have them tested | [`finish`](ExpressionStoreBuilder::finish): an [`ExpressionStore`], or the builder back with its first fault |
//! | make a body | [`Body::new`]: a body, or its parts back with their first fault |
//! | walk over nodes | [`children`](ExpressionStore::children), [`parent`](ExpressionStore::parent), [`walk_pats`](ExpressionStore::walk_pats) and the like |
//! | resolve names | [`scopes`](ExpressionStore::scopes) |
//! | find uses, captures, renames | [`usages`](Body::usages), [`captures`](Body::captures), [`rename`](Body::rename) |
//! | print | [`Body::print`], [`print_expr`](ExpressionStore::print_expr), with [`Tables`] |
//! | ask much at once | a [`Batch`] |
//! | send lines of your own | [`lines`] |
//!
//! A session is a process where the variable `HIR_ASK_PROGRAM` names the program, else a handle of the library, where the package was
//! built with one.

pub mod hir;
pub mod lines;
pub mod make;
pub mod notation;

mod arena;
mod batch;
mod body;
mod builder;
mod def;
mod error;
mod fault;
#[cfg(hir_c)]
#[allow(unsafe_code)]
mod ffi;
mod fields;
mod generics;
mod ids;
mod link;
mod name;
mod nodes;
mod prec;
mod program;
mod query;
mod scopes;
#[cfg(hir_serde)]
mod serde;
mod signature;
mod source;
mod source_questions;
mod store;
mod tables;
mod transport;
mod usages;

pub use arena::Arena;
pub use batch::{Answers, Batch, Question};
pub use body::{Body, Param, RefusedBody};
pub use builder::{ExpressionStoreBuilder, Refused};
pub use def::{
    AdtId, DefWithBodyId, GenericDefId, LangItemTarget, LifetimeParamId, MacroId, NamedDef,
    PlainDef, TypeOrConstParamId, TypeParamId, VariantId,
};
pub use error::{HirError, Result, SessionError};
pub use fault::{BodyFault, FinishFault, Missing, NodeId, SignatureFault};
pub use fields::{FieldData, FieldsShape, RawVisibility, RefusedFields, VariantFields};
pub use generics::{
    ConstParamData, GenericParams, LifetimeBoundType, LifetimeParamData, TypeOrConstParamData,
    TypeParamData, TypeParamProvenance, WherePredicate,
};
pub use ids::{
    BindingId, BlockId, ConstId, CrateId, EnumId, EnumVariantId, ExprId, FunctionId, HirFileId, Id,
    ImplId, LabelId, LifetimeRefId, LocalLifetimeParamId, LocalTypeOrConstParamId, Macro2Id,
    MacroCallId, MacroDefId, MacroRulesId, PatId, ProcMacroId, StaticId, StructId, TraitId,
    TypeAliasId, TypeRefId, UnionId,
};
pub use name::{HygieneId, Name};
pub use prec::ExprPrecedence;
pub use scopes::{Expansion, ExprScopes, Frame, ScopeEntry};
pub use signature::{
    FunctionData, FunctionSignature, GenericCounts, PlainSignature, RefusedSignature, Signature,
    SignatureData, StructData, StructSignature,
};
pub use source::{
    ExpressionStoreDiagnostics, InFile, MissingBodyItemKind, Source, SyntaxNodePtr, TextRange,
};
pub use store::{Child, ExprOrPatId, ExpressionStore};
pub use tables::{Edition, Repr, Tables};
pub use usages::{RenameFault, Usage, Usages};
