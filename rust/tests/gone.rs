//! Programs that can't be started or that end: errors, and no panic. One test, since it sets a variable of the process.

use hir_expr_store::lines::{answer, Session};
use hir_expr_store::{make, ExpressionStoreBuilder, FunctionId, HirError, SessionError};
use std::env;

/// What comes of a store in a session of this program.
fn finish_with(program: &str) -> HirError {
    env::set_var("HIR_ASK_PROGRAM", program);
    let mut builder = ExpressionStoreBuilder::new();
    // More than a pipe takes at once.
    let exprs: Vec<_> = (0..20_000)
        .map(|_| make::local(&mut builder, "name"))
        .collect();
    let root = make::tuple(&mut builder, &exprs);
    builder.push_root(root);
    let refused = builder.finish().unwrap_err();
    assert_eq!(refused.builder.exprs().len(), 20_001);
    refused.error
}

fn is_gone(error: &HirError) -> bool {
    matches!(error, HirError::Session(SessionError::Gone(_)))
}

#[test]
fn a_program_that_ends_is_an_error() {
    let program = env::var("HIR_ASK_PROGRAM");
    let absent = finish_with("/nowhere/hir_ask");
    assert!(
        matches!(absent, HirError::Session(SessionError::NotStarted { .. })),
        "{absent}"
    );
    for ended in ["/bin/true", "/bin/false"] {
        let error = finish_with(ended);
        assert!(is_gone(&error), "{error}");
        assert!(is_gone(&Session::open().unwrap().ask("nodes").unwrap_err()));
        assert!(answer("nodes").is_ok_and(|it| it.answers.is_empty()));
    }
    // A session that was open stays what it is, whatever the variable says then.
    match program {
        Ok(program) => env::set_var("HIR_ASK_PROGRAM", program),
        Err(_) => env::remove_var("HIR_ASK_PROGRAM"),
    }
    let mut builder = ExpressionStoreBuilder::new();
    let root = make::int(&mut builder, 1);
    let body = make::body(FunctionId::from_raw(0), builder, &[], root).unwrap();
    env::set_var("HIR_ASK_PROGRAM", "/nowhere/hir_ask");
    assert_eq!(body.children(root), Ok(Vec::new()));
}
