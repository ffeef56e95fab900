//! Nodes by hand: a call for each form that most code is made of, under the names of the crate `hir_make`.
//!
//! Each adds nodes to a builder, children before their parent, and returns the id of the last. What they don't make, as paths with generic
//! arguments, is made of the types of [`hir`](crate::hir).
//!
//! ```
//! use hir_expr_store::{Edition, ExpressionStoreBuilder, FunctionId, Tables, make};
//!
//! # fn main() -> Result<(), hir_expr_store::HirError> {
//! // fn f(n) { let add = |m| n + m; add(1) }
//! let b = &mut ExpressionStoreBuilder::new();
//! let (n, m, add) = (make::bind(b, "n"), make::bind(b, "m"), make::bind(b, "add"));
//! let (left, right) = (make::local(b, "n"), make::local(b, "m"));
//! let sum = make::binary(b, make::ADD, left, right);
//! let closure = make::closure(b, &[m], sum);
//! let callee = make::local(b, "add");
//! let one = make::int(b, 1);
//! let call = make::call(b, callee, &[one]);
//! let root = make::block(b, vec![make::let_(add, closure)], call);
//! let body = make::body(FunctionId::from_raw(0), std::mem::take(b), &[n], root)?;
//! assert_eq!(body.captures(closure)?, [body.bound_by(n).unwrap()]);
//! # Ok(())
//! # }
//! ```

use crate::body::{Body, Param};
use crate::builder::ExpressionStoreBuilder;
use crate::def::DefWithBodyId;
use crate::error::Result;
use crate::hir::{
    ArithOp, Array, BinaryOp, Binding, BindingAnnotation, BuiltinInt, BuiltinUint, CaptureBy,
    ClosureKind, CmpOp, Expr, FloatTypeWrapper, GenericArg, GenericArgs, Label, Literal, LogicOp,
    LoopSource, MatchArm, ModPath, Mutability, Ordering, Pat, Path, PathKind, Rawness,
    RecordFieldPat, RecordLitField, RecordSpread, RefType, Statement, TypeRef, UnaryOp, Unsafe,
};
use crate::ids::{ExprId, LabelId, PatId, TypeRefId};
use crate::name::Name;

/// `+`
pub const ADD: BinaryOp = BinaryOp::ArithOp(ArithOp::Add);
/// `-`
pub const SUB: BinaryOp = BinaryOp::ArithOp(ArithOp::Sub);
/// `*`
pub const MUL: BinaryOp = BinaryOp::ArithOp(ArithOp::Mul);
/// `==`
pub const EQ: BinaryOp = BinaryOp::CmpOp(CmpOp::Eq { negated: false });
/// `!=`
pub const NE: BinaryOp = BinaryOp::CmpOp(CmpOp::Eq { negated: true });
/// `<`
pub const LT: BinaryOp = BinaryOp::CmpOp(CmpOp::Ord {
    ordering: Ordering::Less,
    strict: true,
});
/// `>`
pub const GT: BinaryOp = BinaryOp::CmpOp(CmpOp::Ord {
    ordering: Ordering::Greater,
    strict: true,
});
/// `&&`
pub const AND: BinaryOp = BinaryOp::LogicOp(LogicOp::And);
/// `||`
pub const OR: BinaryOp = BinaryOp::LogicOp(LogicOp::Or);

fn path(name: &str) -> Path {
    Path::from_name(Name::new(name))
}

/// The plain path of these names, as `["a", "b"]` of `a::b`.
pub fn path_of(names: &[&str]) -> Path {
    let names = names.iter().map(|name| Name::new(*name));
    Path::BarePath(ModPath::from_segments(PathKind::Plain, names))
}

/// The plain path of one name with these types as its arguments, as `Vec::<u8>`.
pub fn path_with_args(name: &str, types: &[TypeRefId]) -> Path {
    let args = GenericArgs {
        args: types.iter().copied().map(GenericArg::Ty).collect(),
        ..GenericArgs::default()
    };
    Path::from_known_path(ModPath::from_name(Name::new(name)), vec![Some(args)])
}

/// The expression `name`, a path without hygiene.
pub fn local(builder: &mut ExpressionStoreBuilder, name: &str) -> ExprId {
    builder.alloc_expr(Expr::Path(path(name)))
}

/// The number `value`, which has no type written after it.
pub fn int(builder: &mut ExpressionStoreBuilder, value: i128) -> ExprId {
    builder.alloc_expr(Expr::Literal(Literal::Int(value, None)))
}

/// The number `value` with its signed type, as `7i32`.
pub fn typed_int(builder: &mut ExpressionStoreBuilder, value: i128, suffix: BuiltinInt) -> ExprId {
    builder.alloc_expr(Expr::Literal(Literal::Int(value, Some(suffix))))
}

/// The number `value` with its unsigned type, as `7u8`.
pub fn typed_uint(
    builder: &mut ExpressionStoreBuilder,
    value: u128,
    suffix: BuiltinUint,
) -> ExprId {
    builder.alloc_expr(Expr::Literal(Literal::Uint(value, Some(suffix))))
}

/// The floating point number of this text, as `1.5`, which has no type written after it.
pub fn float(builder: &mut ExpressionStoreBuilder, text: &str) -> ExprId {
    builder.alloc_expr(Expr::Literal(Literal::Float(
        FloatTypeWrapper::new(text),
        None,
    )))
}

/// `true` or `false`.
pub fn bool_(builder: &mut ExpressionStoreBuilder, value: bool) -> ExprId {
    builder.alloc_expr(Expr::Literal(Literal::Bool(value)))
}

/// A character, as `'a'`.
pub fn char_(builder: &mut ExpressionStoreBuilder, value: char) -> ExprId {
    builder.alloc_expr(Expr::Literal(Literal::Char(value)))
}

/// The string of this text, which is given without quotes and escapes.
pub fn string(builder: &mut ExpressionStoreBuilder, text: &str) -> ExprId {
    builder.alloc_expr(Expr::Literal(Literal::String(String::from(text))))
}

/// `(exprs)`
pub fn tuple(builder: &mut ExpressionStoreBuilder, exprs: &[ExprId]) -> ExprId {
    builder.alloc_expr(Expr::Tuple {
        exprs: exprs.to_vec(),
    })
}

/// `[elements]`
pub fn array(builder: &mut ExpressionStoreBuilder, elements: &[ExprId]) -> ExprId {
    builder.alloc_expr(Expr::Array(Array::ElementList {
        elements: elements.to_vec(),
    }))
}

/// `base[index]`
pub fn index(builder: &mut ExpressionStoreBuilder, base: ExprId, index: ExprId) -> ExprId {
    builder.alloc_expr(Expr::Index { base, index })
}

/// `callee(args)`
pub fn call(builder: &mut ExpressionStoreBuilder, callee: ExprId, args: &[ExprId]) -> ExprId {
    builder.alloc_expr(Expr::Call {
        callee,
        args: args.to_vec(),
    })
}

/// `receiver.name(args)`, without generic arguments.
pub fn method_call(
    builder: &mut ExpressionStoreBuilder,
    receiver: ExprId,
    name: &str,
    args: &[ExprId],
) -> ExprId {
    builder.alloc_expr(Expr::MethodCall {
        receiver,
        method_name: Name::new(name),
        args: args.to_vec(),
        generic_args: None,
    })
}

/// `expr.name`, or `expr.0` where the name is the number of a field of a tuple.
pub fn field(builder: &mut ExpressionStoreBuilder, expr: ExprId, name: &str) -> ExprId {
    builder.alloc_expr(Expr::Field {
        expr,
        name: Name::new(name),
    })
}

/// `&expr` or `&mut expr`
pub fn reference(
    builder: &mut ExpressionStoreBuilder,
    expr: ExprId,
    mutability: Mutability,
) -> ExprId {
    builder.alloc_expr(Expr::Ref {
        expr,
        rawness: Rawness::Ref,
        mutability,
    })
}

/// `lhs op rhs`. A plain `=` is an assignment.
pub fn binary(
    builder: &mut ExpressionStoreBuilder,
    op: BinaryOp,
    lhs: ExprId,
    rhs: ExprId,
) -> ExprId {
    builder.alloc_expr(Expr::BinaryOp {
        lhs,
        rhs,
        op: Some(op),
    })
}

/// `op expr`
pub fn unary(builder: &mut ExpressionStoreBuilder, op: UnaryOp, expr: ExprId) -> ExprId {
    builder.alloc_expr(Expr::UnaryOp { expr, op })
}

/// `name = value`, and before it the pattern `name` that it assigns to, a path without hygiene.
pub fn assign(builder: &mut ExpressionStoreBuilder, name: &str, value: ExprId) -> ExprId {
    let target = path_pat(builder, name);
    builder.alloc_expr(Expr::Assignment { target, value })
}

/// `|args| body`, which has no types written and isn't `move`.
pub fn closure(builder: &mut ExpressionStoreBuilder, args: &[PatId], body: ExprId) -> ExprId {
    builder.alloc_expr(Expr::Closure {
        args: args.to_vec(),
        arg_types: vec![None; args.len()],
        ret_type: None,
        body,
        closure_kind: ClosureKind::Closure,
        capture_by: CaptureBy::Ref,
    })
}

fn plain_block(
    builder: &mut ExpressionStoreBuilder,
    statements: Vec<Statement>,
    tail: Option<ExprId>,
) -> ExprId {
    builder.alloc_expr(Expr::Block {
        id: None,
        statements,
        tail,
        label: None,
        unsafe_: Unsafe::No,
    })
}

/// `{ statements tail }`, which has no label, isn't unsafe and holds no items.
pub fn block(
    builder: &mut ExpressionStoreBuilder,
    statements: Vec<Statement>,
    tail: ExprId,
) -> ExprId {
    plain_block(builder, statements, Some(tail))
}

/// `{ statements }`, whose value is `()`.
pub fn block_without_tail(
    builder: &mut ExpressionStoreBuilder,
    statements: Vec<Statement>,
) -> ExprId {
    plain_block(builder, statements, None)
}

/// The statement `let pat = value;`.
pub fn let_(pat: PatId, value: ExprId) -> Statement {
    Statement::Let {
        pat,
        type_ref: None,
        initializer: Some(value),
        else_branch: None,
    }
}

/// The statement `let pat: type_ref = value;`.
pub fn let_typed(pat: PatId, type_ref: TypeRefId, value: ExprId) -> Statement {
    Statement::Let {
        pat,
        type_ref: Some(type_ref),
        initializer: Some(value),
        else_branch: None,
    }
}

/// The statement `let pat = value else else_branch;`.
pub fn let_else(pat: PatId, value: ExprId, else_branch: ExprId) -> Statement {
    Statement::Let {
        pat,
        type_ref: None,
        initializer: Some(value),
        else_branch: Some(else_branch),
    }
}

/// The statement `expr;`.
pub fn statement(expr: ExprId) -> Statement {
    Statement::Expr {
        expr,
        has_semi: true,
    }
}

/// `if condition then_branch`, with `else else_branch` where there is one. Each branch is a block, and the second may be another `if`.
pub fn if_(
    builder: &mut ExpressionStoreBuilder,
    condition: ExprId,
    then_branch: ExprId,
    else_branch: Option<ExprId>,
) -> ExprId {
    builder.alloc_expr(Expr::If {
        condition,
        then_branch,
        else_branch,
    })
}

/// The condition `let pat = expr`, as an `if` or a guard has it. The statement is `let_`.
pub fn let_expr(builder: &mut ExpressionStoreBuilder, pat: PatId, expr: ExprId) -> ExprId {
    builder.alloc_expr(Expr::Let { pat, expr })
}

/// `match expr { arms }`
pub fn match_(builder: &mut ExpressionStoreBuilder, expr: ExprId, arms: Vec<MatchArm>) -> ExprId {
    builder.alloc_expr(Expr::Match { expr, arms })
}

/// The arm `pat => expr`.
pub fn arm(pat: PatId, expr: ExprId) -> MatchArm {
    MatchArm {
        pat,
        guard: None,
        expr,
    }
}

/// The arm `pat if guard => expr`.
pub fn arm_if(pat: PatId, guard: ExprId, expr: ExprId) -> MatchArm {
    MatchArm {
        pat,
        guard: Some(guard),
        expr,
    }
}

/// The label `name`, which has its apostrophe, as `'outer`.
pub fn label(builder: &mut ExpressionStoreBuilder, name: &str) -> LabelId {
    builder.alloc_label(Label {
        name: Name::new(name),
    })
}

/// `loop body`, with `label:` before it where there is one. The body is a block.
pub fn loop_(builder: &mut ExpressionStoreBuilder, label: Option<LabelId>, body: ExprId) -> ExprId {
    builder.alloc_expr(Expr::Loop {
        body,
        label,
        source: LoopSource::Loop,
    })
}

/// `while condition body`, with `label:` before it where there is one, as rust-analyzer lowers it: `loop if condition body else break`.
/// The `break`, the `if` and the loop come in this order. The body is a block.
pub fn while_(
    builder: &mut ExpressionStoreBuilder,
    label: Option<LabelId>,
    condition: ExprId,
    body: ExprId,
) -> ExprId {
    let stop = break_(builder, None, None);
    let test = if_(builder, condition, body, Some(stop));
    builder.alloc_expr(Expr::Loop {
        body: test,
        label,
        source: LoopSource::While,
    })
}

/// `break label value`, each where there is one.
pub fn break_(
    builder: &mut ExpressionStoreBuilder,
    label: Option<LabelId>,
    value: Option<ExprId>,
) -> ExprId {
    builder.alloc_expr(Expr::Break { expr: value, label })
}

/// `continue label`, or `continue`.
pub fn continue_(builder: &mut ExpressionStoreBuilder, label: Option<LabelId>) -> ExprId {
    builder.alloc_expr(Expr::Continue { label })
}

/// `return value`, or `return`.
pub fn return_(builder: &mut ExpressionStoreBuilder, value: Option<ExprId>) -> ExprId {
    builder.alloc_expr(Expr::Return { expr: value })
}

/// `name: value` of a record literal.
pub fn lit_field(name: &str, value: ExprId) -> RecordLitField {
    RecordLitField {
        name: Name::new(name),
        expr: value,
    }
}

/// `name { fields }`
pub fn record_lit(
    builder: &mut ExpressionStoreBuilder,
    name: &str,
    fields: Vec<RecordLitField>,
) -> ExprId {
    builder.alloc_expr(Expr::RecordLit {
        path: path(name),
        fields,
        spread: RecordSpread::None,
    })
}

/// The pattern `name`, and before it the binding of this name, without words before it.
pub fn bind(builder: &mut ExpressionStoreBuilder, name: &str) -> PatId {
    bind_as(builder, name, BindingAnnotation::Unannotated, None)
}

/// The pattern `mode name @ subpat`, and before it the binding of this name.
pub fn bind_as(
    builder: &mut ExpressionStoreBuilder,
    name: &str,
    mode: BindingAnnotation,
    subpat: Option<PatId>,
) -> PatId {
    let binding = Binding {
        mode,
        ..Binding::new(Name::new(name))
    };
    let id = builder.alloc_binding(binding);
    builder.alloc_pat(Pat::Bind { id, subpat })
}

/// The pattern `_`.
pub fn wild(builder: &mut ExpressionStoreBuilder) -> PatId {
    builder.alloc_pat(Pat::Wild)
}

/// The pattern that is the path `name`, as a constant, or a variable that is assigned to.
pub fn path_pat(builder: &mut ExpressionStoreBuilder, name: &str) -> PatId {
    builder.alloc_pat(Pat::Path(path(name)))
}

/// The pattern that is a literal.
pub fn lit_pat(builder: &mut ExpressionStoreBuilder, expr: ExprId) -> PatId {
    builder.alloc_pat(Pat::Lit(expr))
}

/// The pattern `a | b`.
pub fn or_pat(builder: &mut ExpressionStoreBuilder, pats: &[PatId]) -> PatId {
    builder.alloc_pat(Pat::Or(pats.to_vec()))
}

/// The pattern `(a, b)`.
pub fn tuple_pat(builder: &mut ExpressionStoreBuilder, pats: &[PatId]) -> PatId {
    builder.alloc_pat(Pat::Tuple {
        args: pats.to_vec(),
        ellipsis: None,
    })
}

/// The pattern `name(a, b)`.
pub fn tuple_struct(builder: &mut ExpressionStoreBuilder, name: &str, pats: &[PatId]) -> PatId {
    builder.alloc_pat(Pat::TupleStruct {
        path: path(name),
        args: pats.to_vec(),
        ellipsis: None,
    })
}

/// `name: pat` of a record pattern.
pub fn pat_field(name: &str, pat: PatId) -> RecordFieldPat {
    RecordFieldPat {
        name: Name::new(name),
        pat,
    }
}

/// The pattern `name { fields }`, or `name { fields, .. }`.
pub fn record_pat(
    builder: &mut ExpressionStoreBuilder,
    name: &str,
    fields: Vec<RecordFieldPat>,
    ellipsis: bool,
) -> PatId {
    builder.alloc_pat(Pat::Record {
        path: path(name),
        args: fields,
        ellipsis,
    })
}

/// The type that is the path `name`.
pub fn path_type(builder: &mut ExpressionStoreBuilder, name: &str) -> TypeRefId {
    builder.alloc_type(TypeRef::Path(path(name)))
}

/// The type `&ty` or `&mut ty`, without a lifetime.
pub fn ref_type(
    builder: &mut ExpressionStoreBuilder,
    ty: TypeRefId,
    mutability: Mutability,
) -> TypeRefId {
    builder.alloc_type(TypeRef::Reference(Box::new(RefType {
        ty,
        lifetime: None,
        mutability,
    })))
}

/// The parameters that are these patterns, as the user wrote them.
pub fn params(pats: &[PatId]) -> Vec<Param<PatId>> {
    pats.iter().copied().map(Param::new).collect()
}

/// The body of a definition with these parameters, which evaluates `value`: `value` becomes the last root, and the builder is finished.
pub fn body(
    def: impl Into<DefWithBodyId>,
    mut builder: ExpressionStoreBuilder,
    pats: &[PatId],
    value: ExprId,
) -> Result<Body> {
    builder.push_root(value);
    Ok(Body::new(def, builder.finish()?, params(pats), None)?)
}
