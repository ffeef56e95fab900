//! Nodes of bodies that tests build. Each test uses some.
#![allow(dead_code)]

use hir_expr_store::hir::{Binding, Expr, Pat, Path, Statement, Unsafe};
use hir_expr_store::{
    BindingId, DefWithBodyId, ExprId, ExpressionStoreBuilder, FunctionId, Name, PatId,
};

pub fn f() -> DefWithBodyId {
    FunctionId::from_raw(0).into()
}

pub fn local(builder: &mut ExpressionStoreBuilder, name: &str) -> ExprId {
    builder.alloc_expr(Expr::Path(Path::from_name(Name::new(name))))
}

pub fn bind(builder: &mut ExpressionStoreBuilder, name: &str) -> (BindingId, PatId) {
    let id = builder.alloc_binding(Binding::new(Name::new(name)));
    (id, builder.alloc_pat(Pat::Bind { id, subpat: None }))
}

pub fn block(
    builder: &mut ExpressionStoreBuilder,
    statements: Vec<Statement>,
    tail: Option<ExprId>,
) -> ExprId {
    builder.alloc_expr(Expr::Block {
        id: None,
        statements,
        tail,
        label: None,
        unsafe_: Unsafe::No,
    })
}
