//! Assignments: the left side is a pattern.

use super::paths::local_name;
use super::pats::member_name;
use super::{Lowering, Use};
use crate::span::Span;
use hir_expr_store::hir::{Expr, Pat, RecordFieldPat};
use hir_expr_store::{ExprId, ExprOrPatId, Name, PatId};

/// A name on the left of an assignment, which may mean a variable.
pub(super) struct Target {
    path: PatId,
    name: Name,
    span: Span,
}

/// Whether an expression is `..`.
fn is_rest(expr: &syn::Expr) -> bool {
    matches!(expr, syn::Expr::Range(range) if range.from.is_none() && range.to.is_none())
}

/// Whether an expression is `_`, which syn gives as a token.
pub(super) fn is_underscore(expr: &syn::Expr) -> bool {
    matches!(expr, syn::Expr::Verbatim(tokens) if tokens.to_string() == "_")
}

impl Lowering {
    /// An assignment. Names on its left side are looked for at the assignment itself.
    pub(super) fn assignment(&mut self, left: &syn::Expr, right: &syn::Expr) -> ExprId {
        let mut targets = Vec::new();
        let target = self.target(left, &mut targets);
        let value = self.expr(right);
        let at = self.alloc(Expr::Assignment { target, value });
        for Target { path, name, span } in targets {
            let path = ExprOrPatId::PatId(path);
            self.sources.uses.push(Use {
                path,
                at,
                name,
                span,
                is_in_constant: self.is_in_constant,
            });
        }
        at
    }

    fn targets<'a>(
        &mut self,
        exprs: impl Iterator<Item = &'a syn::Expr>,
        targets: &mut Vec<Target>,
    ) -> (Vec<PatId>, Option<u32>) {
        let mut members = Vec::new();
        let mut ellipsis = None;
        for expr in exprs {
            if is_rest(expr) && ellipsis.is_none() {
                ellipsis = u32::try_from(members.len()).ok();
            } else {
                members.push(self.target(expr, targets));
            }
        }
        (members, ellipsis)
    }

    fn slice_target(&mut self, array: &syn::ExprArray, targets: &mut Vec<Target>) -> Pat {
        let (mut prefix, rest) = self.targets(array.elems.iter(), targets);
        let place = rest.and_then(|place| usize::try_from(place).ok());
        let suffix = place.map_or_else(Vec::new, |place| prefix.split_off(place));
        Pat::Slice {
            prefix,
            slice: place.map(|_| self.builder.alloc_pat(Pat::Rest)),
            suffix,
        }
    }

    fn path_target(&mut self, it: &syn::ExprPath, targets: &mut Vec<Target>) -> PatId {
        let path = self.path(it.qself.as_ref(), &it.path);
        let name = local_name(it, &path);
        let path = self.builder.alloc_pat(Pat::Path(path));
        if let Some(name) = name {
            targets.push(Target {
                path,
                name,
                span: Span::of(&it.path),
            });
        }
        path
    }

    fn target(&mut self, expr: &syn::Expr, targets: &mut Vec<Target>) -> PatId {
        let lowered = match expr {
            syn::Expr::Paren(paren) => return self.target(&paren.expr, targets),
            syn::Expr::Group(group) => return self.target(&group.expr, targets),
            syn::Expr::Path(it) => return self.path_target(it, targets),
            syn::Expr::Tuple(tuple) => {
                let (args, ellipsis) = self.targets(tuple.elems.iter(), targets);
                Pat::Tuple { args, ellipsis }
            }
            syn::Expr::Array(array) => self.slice_target(array, targets),
            syn::Expr::Call(call) => match &*call.func {
                syn::Expr::Path(it) => {
                    let path = self.path(it.qself.as_ref(), &it.path);
                    let (args, ellipsis) = self.targets(call.args.iter(), targets);
                    Pat::TupleStruct {
                        path,
                        args,
                        ellipsis,
                    }
                }
                _ => Pat::Expr(self.expr(expr)),
            },
            syn::Expr::Struct(record) => {
                let path = self.path(None, &record.path);
                let mut args = Vec::new();
                for field in &record.fields {
                    self.keep_short_field(field);
                    args.push(RecordFieldPat {
                        name: member_name(&field.member),
                        pat: self.target(&field.expr, targets),
                    });
                }
                Pat::Record {
                    path,
                    args,
                    ellipsis: record.dot2_token.is_some(),
                }
            }
            expr if is_underscore(expr) => Pat::Wild,
            expr => Pat::Expr(self.expr(expr)),
        };
        self.builder.alloc_pat(lowered)
    }
}
