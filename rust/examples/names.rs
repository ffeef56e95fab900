//! Asks a body of many names what each of them resolves to, one question at a time, and says how long that took:
//! `cargo run --release --example names -- 4000`.

use hir_expr_store::{make, ExpressionStoreBuilder, FunctionId, HirError};
use std::time::Instant;

fn main() -> Result<(), HirError> {
    let count = std::env::args().nth(1).and_then(|it| it.parse().ok());
    let count: usize = count.unwrap_or(4000);
    let begin = Instant::now();
    let mut builder = ExpressionStoreBuilder::new();
    let (mut statements, mut paths) = (Vec::new(), Vec::new());
    for number in 0..count {
        let pat = make::bind(&mut builder, &format!("x{number}"));
        let used = number.saturating_sub(1);
        let path = make::local(&mut builder, &format!("x{used}"));
        statements.push(make::let_(pat, path));
        paths.push(path);
    }
    let root = make::block_without_tail(&mut builder, statements);
    let body = make::body(FunctionId::from_raw(0), builder, &[], root)?;
    let made = begin.elapsed();
    let begin = Instant::now();
    let scopes = body.scopes()?;
    let for_scopes = begin.elapsed();
    let begin = Instant::now();
    let mut resolved = 0;
    for path in paths {
        resolved += usize::from(scopes.binding_at(path)?.is_some());
    }
    let asked = begin.elapsed();
    println!(
        "{resolved} of {count} resolve; made in {made:?}, scopes in {for_scopes:?}, asked in {asked:?}"
    );
    Ok(())
}
