//! Names in constants, as in `[0; size()]`: by the store's scopes, as by rust-analyzer's, they see no variables of the body, and rustc finds
//! the variables around the constant and refuses them (E0435).

use crate::lower::{Lowered, Use};
use hir_expr_store::hir::{Expr, Statement};
use hir_expr_store::{Batch, Body, ExprId, ExprOrPatId, Frame, HirError, NodeId, TypeRefId};

/// A name in a constant that resolves to no variable, and what is around the constant.
pub struct InConstant<'a> {
    /// The name.
    pub usage: &'a Use,
    /// The chains of the expressions around it, each with the innermost scope first. What is around a use is around its ancestors, but for
    /// those that are in the constant too: the others have in their chains what the use hasn't.
    pub chains: Vec<Vec<Frame>>,
}

/// Those of these uses that resolve to no variable, in their order.
pub fn around_constants(
    lowered: &Lowered,
    wanted: impl FnMut(&&Use) -> bool,
) -> Result<Vec<InConstant<'_>>, HirError> {
    let uses: Vec<&Use> = lowered.sources.uses.iter().filter(wanted).collect();
    if uses.is_empty() {
        return Ok(Vec::new());
    }
    let mut batch = Batch::of_body(&lowered.body);
    let unresolved = batch.unresolved();
    let mut asked = Vec::new();
    for usage in uses {
        if let ExprOrPatId::ExprId(expr) = usage.path {
            asked.push((usage, batch.ancestors(NodeId::Expr(expr))));
        }
    }
    let answers = batch.ask()?;
    let unresolved = answers.get(unresolved)?;
    let mut found = Vec::new();
    for (usage, ancestors) in asked {
        if unresolved.contains(&usage.path) {
            let around = exprs_around(&lowered.body, &answers.get(ancestors)?);
            let chains = chains(&lowered.body, &around)?;
            found.push(InConstant { usage, chains });
        }
    }
    Ok(found)
}

/// The expressions among ancestors. What is in the type of a `let` has beside them its value, since the block that it is in has the scope
/// that is around the block.
fn exprs_around(body: &Body, ancestors: &[NodeId]) -> Vec<ExprId> {
    let mut around = Vec::new();
    let mut below = None;
    for node in ancestors {
        if let NodeId::Expr(expr) = *node {
            around.push(expr);
            if let Some(NodeId::TypeRef(ty)) = below {
                around.extend(value_of(&body[expr], ty));
            }
        }
        below = Some(*node);
    }
    around
}

/// The value of the `let` of a block that has this type.
fn value_of(block: &Expr, ty: TypeRefId) -> Option<ExprId> {
    let Expr::Block { statements, .. } = block else {
        return None;
    };
    statements.iter().find_map(|statement| match statement {
        Statement::Let {
            type_ref: Some(it),
            initializer,
            ..
        } if *it == ty => *initializer,
        _ => None,
    })
}

/// The chains of those of these expressions that have one.
fn chains(body: &Body, exprs: &[ExprId]) -> Result<Vec<Vec<Frame>>, HirError> {
    let mut batch = Batch::of_body(body);
    let questions: Vec<_> = exprs.iter().map(|expr| batch.frames(*expr)).collect();
    let answers = batch.ask()?;
    let mut chains = Vec::new();
    for question in questions {
        match answers.get(question) {
            Ok(frames) => chains.push(frames),
            Err(HirError::Unreached) => {}
            Err(error) => return Err(error),
        }
    }
    Ok(chains)
}
