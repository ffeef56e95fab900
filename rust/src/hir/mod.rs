//! The nodes of a store: expressions, patterns, bindings, labels, types and lifetimes, with the types that they are made of.

mod binding;
mod expr;
mod literal;
mod operators;
mod pat;
mod path;
mod type_ref;

pub use binding::{Binding, BindingAnnotation, BindingProblems, Label};
pub use expr::{
    Array, CaptureBy, ClosureKind, CoroutineKind, CoroutineSource, Expr, Item, LoopSource,
    MatchArm, Movability, OffsetOf, RecordLitField, RecordSpread, Statement, Unsafe,
};
pub use literal::{BuiltinFloat, BuiltinInt, BuiltinUint, FloatTypeWrapper, Literal};
pub use operators::{ArithOp, BinaryOp, CmpOp, LogicOp, Ordering, RangeOp, UnaryOp};
pub use pat::{Pat, RecordFieldPat};
pub use path::{
    AssociatedTypeBinding, ConstRef, GenericArg, GenericArgs, GenericArgsParentheses, ModPath,
    NormalPath, Path, PathId, PathKind, TraitBoundModifier, TypeBound, UseArgRef,
};
pub use type_ref::{
    ArrayType, ExternAbi, FnType, LifetimeRef, Mutability, Rawness, RefType, TypeRef,
};
