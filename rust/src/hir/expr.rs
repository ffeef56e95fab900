//! Expressions, and the types that they are made of.

use super::{BinaryOp, GenericArgs, Literal, Mutability, Path, Rawness, UnaryOp};
use crate::ids::{BlockId, ExprId, LabelId, MacroDefId, PatId, TypeRefId};
use crate::name::Name;

/// What comes behind the fields of a record literal.
#[derive(Clone, Copy, PartialEq, Eq, Debug)]
#[cfg_attr(hir_serde, derive(serde::Serialize, serde::Deserialize))]
pub enum RecordSpread {
    /// Nothing.
    None,
    /// `..` alone: the fields that are left take their defaults.
    FieldDefaults,
    /// `..` and the value that the other fields are taken from.
    Expr(ExprId),
}

/// Whether a block is unsafe.
#[derive(Clone, Copy, PartialEq, Eq, Debug)]
#[cfg_attr(hir_serde, derive(serde::Serialize, serde::Deserialize))]
pub enum Unsafe {
    /// It is.
    Yes,
    /// It isn't.
    No,
}

/// The word that a loop was written with.
#[derive(Clone, Copy, PartialEq, Eq, Debug)]
#[cfg_attr(hir_serde, derive(serde::Serialize, serde::Deserialize))]
pub enum LoopSource {
    /// `loop`
    Loop,
    /// `while`
    While,
    /// `for`
    ForLoop,
}

/// The place of a field in a type, as `offset_of!` asks for it.
#[derive(Clone, PartialEq, Eq, Debug)]
#[cfg_attr(hir_serde, derive(serde::Serialize, serde::Deserialize))]
pub struct OffsetOf {
    /// The type.
    pub container: TypeRefId,
    /// The names that lead to the field, outermost first.
    pub fields: Vec<Name>,
}

/// The words before a coroutine.
#[derive(Clone, Copy, PartialEq, Eq, Hash, Debug)]
#[cfg_attr(hir_serde, derive(serde::Serialize, serde::Deserialize))]
pub enum CoroutineKind {
    /// `async`
    Async,
    /// `gen`
    Gen,
    /// `async gen`
    AsyncGen,
}

/// Where a coroutine comes from.
#[derive(Clone, Copy, PartialEq, Eq, Hash, Debug)]
#[cfg_attr(hir_serde, derive(serde::Serialize, serde::Deserialize))]
pub enum CoroutineSource {
    /// A block, as `async {}`.
    Block,
    /// A closure, as `async || {}`.
    Closure,
    /// The body of a function.
    Fn,
}

/// Whether a coroutine may be moved once it has begun.
#[derive(Clone, Copy, PartialEq, Eq, Hash, Debug)]
#[cfg_attr(hir_serde, derive(serde::Serialize, serde::Deserialize))]
pub enum Movability {
    /// It may not.
    Static,
    /// It may.
    Movable,
}

/// What a closure expression makes.
#[derive(Clone, Copy, PartialEq, Eq, Hash, Debug)]
#[cfg_attr(hir_serde, derive(serde::Serialize, serde::Deserialize))]
pub enum ClosureKind {
    /// A closure.
    Closure,
    /// A coroutine of the old form, a closure that yields.
    OldCoroutine(Movability),
    /// A coroutine: an expression of this kind makes it in place.
    Coroutine {
        /// The words before it.
        kind: CoroutineKind,
        /// Where it comes from.
        source: CoroutineSource,
    },
    /// A closure that makes coroutines.
    CoroutineClosure(CoroutineKind),
}

/// How a closure takes the variables around it.
#[derive(Clone, Copy, PartialEq, Eq, Debug)]
#[cfg_attr(hir_serde, derive(serde::Serialize, serde::Deserialize))]
pub enum CaptureBy {
    /// By value: `move`.
    Value,
    /// By reference, where that is enough.
    Ref,
}

/// An array.
#[derive(Clone, PartialEq, Eq, Debug)]
#[cfg_attr(hir_serde, derive(serde::Serialize, serde::Deserialize))]
pub enum Array {
    /// `[a, b]`
    ElementList {
        /// The items.
        elements: Vec<ExprId>,
    },
    /// `[a; n]`
    Repeat {
        /// The item.
        initializer: ExprId,
        /// How many there are: a constant, which sees no local variables.
        repeat: ExprId,
    },
}

/// An arm of a match.
#[derive(Clone, PartialEq, Eq, Debug)]
#[cfg_attr(hir_serde, derive(serde::Serialize, serde::Deserialize))]
pub struct MatchArm {
    /// Its pattern.
    pub pat: PatId,
    /// The condition behind `if`.
    pub guard: Option<ExprId>,
    /// Its body.
    pub expr: ExprId,
}

/// A field of a record literal.
#[derive(Clone, PartialEq, Eq, Debug)]
#[cfg_attr(hir_serde, derive(serde::Serialize, serde::Deserialize))]
pub struct RecordLitField {
    /// Its name.
    pub name: Name,
    /// Its value.
    pub expr: ExprId,
}

/// An item among statements.
#[derive(Clone, Copy, PartialEq, Eq, Debug)]
#[cfg_attr(hir_serde, derive(serde::Serialize, serde::Deserialize))]
pub enum Item {
    /// The definition of a macro, which later statements see.
    MacroDef(MacroDefId),
    /// Any other item.
    Other,
}

/// A statement of a block.
#[derive(Clone, PartialEq, Eq, Debug)]
#[cfg_attr(hir_serde, derive(serde::Serialize, serde::Deserialize))]
pub enum Statement {
    /// `let`
    Let {
        /// Its pattern.
        pat: PatId,
        /// The type behind `:`.
        type_ref: Option<TypeRefId>,
        /// The value behind `=`.
        initializer: Option<ExprId>,
        /// The block behind `else`.
        else_branch: Option<ExprId>,
    },
    /// An expression.
    Expr {
        /// The expression.
        expr: ExprId,
        /// Whether `;` follows.
        has_semi: bool,
    },
    /// An item.
    Item(Item),
}

/// An expression.
#[derive(Clone, PartialEq, Eq, Debug)]
#[cfg_attr(hir_serde, derive(serde::Serialize, serde::Deserialize))]
pub enum Expr {
    /// Nothing was there.
    Missing,
    /// `_`, on the left of an assignment.
    Underscore,
    /// `include_bytes!`, whose file isn't read.
    IncludeBytes,
    /// A path.
    Path(Path),
    /// A literal.
    Literal(Literal),
    /// An array.
    Array(Array),
    /// `offset_of!`
    OffsetOf(OffsetOf),
    /// `const {}`, whose body is a constant: it sees no local variables.
    Const(ExprId),
    /// `if`
    If {
        /// The condition.
        condition: ExprId,
        /// What is done where it holds.
        then_branch: ExprId,
        /// What is behind `else`.
        else_branch: Option<ExprId>,
    },
    /// `let` in a condition.
    Let {
        /// The pattern.
        pat: PatId,
        /// The value.
        expr: ExprId,
    },
    /// A block.
    Block {
        /// Its id, where it has items of its own.
        id: Option<BlockId>,
        /// Its statements.
        statements: Vec<Statement>,
        /// The expression at its end, without `;`.
        tail: Option<ExprId>,
        /// Its label.
        label: Option<LabelId>,
        /// Whether it is unsafe.
        unsafe_: Unsafe,
    },
    /// A loop.
    Loop {
        /// Its body.
        body: ExprId,
        /// Its label.
        label: Option<LabelId>,
        /// The word that it was written with.
        source: LoopSource,
    },
    /// A call.
    Call {
        /// What is called.
        callee: ExprId,
        /// The arguments.
        args: Vec<ExprId>,
    },
    /// A call of a method.
    MethodCall {
        /// What it is called on.
        receiver: ExprId,
        /// Its name.
        method_name: Name,
        /// The arguments.
        args: Vec<ExprId>,
        /// The generic arguments behind its name.
        generic_args: Option<Box<GenericArgs>>,
    },
    /// `match`
    Match {
        /// What is matched.
        expr: ExprId,
        /// The arms.
        arms: Vec<MatchArm>,
    },
    /// `continue`
    Continue {
        /// Its label.
        label: Option<LabelId>,
    },
    /// `break`
    Break {
        /// The value.
        expr: Option<ExprId>,
        /// Its label.
        label: Option<LabelId>,
    },
    /// `return`
    Return {
        /// The value.
        expr: Option<ExprId>,
    },
    /// `yield`
    Yield {
        /// The value.
        expr: Option<ExprId>,
    },
    /// `do yeet`
    Yeet {
        /// The value.
        expr: Option<ExprId>,
    },
    /// `become`
    Become {
        /// The call.
        expr: ExprId,
    },
    /// `.await`
    Await {
        /// What is awaited.
        expr: ExprId,
    },
    /// `S { a: b }`
    RecordLit {
        /// What it is a record of.
        path: Path,
        /// The fields.
        fields: Vec<RecordLitField>,
        /// What comes behind them.
        spread: RecordSpread,
    },
    /// `a.b`
    Field {
        /// What has the field.
        expr: ExprId,
        /// The name of the field.
        name: Name,
    },
    /// `a as T`
    Cast {
        /// The value.
        expr: ExprId,
        /// The type.
        type_ref: TypeRefId,
    },
    /// `&a`
    Ref {
        /// What is borrowed.
        expr: ExprId,
        /// Whether it is a pointer.
        rawness: Rawness,
        /// Whether it may be written.
        mutability: Mutability,
    },
    /// An operator before an expression.
    UnaryOp {
        /// The expression.
        expr: ExprId,
        /// The operator.
        op: UnaryOp,
    },
    /// An operator between two expressions. A plain `=` is an `Assignment`.
    BinaryOp {
        /// The left side.
        lhs: ExprId,
        /// The right side.
        rhs: ExprId,
        /// The operator; `None` where it is missing.
        op: Option<BinaryOp>,
    },
    /// `=`. Its left side is a pattern, whose paths and expressions are those that are written: `x = 1` has the target `Pat::Path(x)`,
    /// and `v[0] = 1` the target `Pat::Expr` of the index.
    Assignment {
        /// The left side.
        target: PatId,
        /// The right side.
        value: ExprId,
    },
    /// `a[b]`
    Index {
        /// What has the item.
        base: ExprId,
        /// The index.
        index: ExprId,
    },
    /// A closure or a coroutine.
    Closure {
        /// The parameters.
        args: Vec<PatId>,
        /// For each parameter its type, where one is written.
        arg_types: Vec<Option<TypeRefId>>,
        /// The type behind `->`.
        ret_type: Option<TypeRefId>,
        /// The body.
        body: ExprId,
        /// What it makes.
        closure_kind: ClosureKind,
        /// How it takes the variables around it.
        capture_by: CaptureBy,
    },
    /// `(a, b)`
    Tuple {
        /// The members.
        exprs: Vec<ExprId>,
    },
}
