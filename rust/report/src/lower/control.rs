//! What control goes through: loops, `?`, matches, closures and blocks that are closures.

use super::lang::Lang;
use super::{ClosureSource, Lowering};
use crate::span::Span;
use hir_expr_store::hir::{
    BindingAnnotation, CaptureBy, ClosureKind, CoroutineKind, CoroutineSource, Expr, LoopSource,
    MatchArm, Movability, Mutability, Pat, Path, Rawness, RecordLitField, RecordSpread, Unsafe,
};
use hir_expr_store::{ExprId, Name, PatId};

/// How a closure takes the variables around it.
fn capture_by(is_move: bool) -> CaptureBy {
    if is_move {
        CaptureBy::Value
    } else {
        CaptureBy::Ref
    }
}

impl Lowering {
    /// The path of an item of the language, as an expression.
    fn lang(&mut self, item: Lang) -> ExprId {
        self.alloc(Expr::Path(item.path()))
    }

    /// A call of an item of the language.
    fn call_lang(&mut self, item: Lang, args: Vec<ExprId>) -> ExprId {
        let callee = self.lang(item);
        self.alloc(Expr::Call { callee, args })
    }

    /// A name that lowering made, as an expression.
    fn made(&mut self, name: &Name) -> ExprId {
        self.alloc(Expr::Path(Path::from_name(name.clone())))
    }

    fn variant_pat(&mut self, item: Lang, arg: PatId) -> PatId {
        self.builder.alloc_pat(Pat::TupleStruct {
            path: item.path(),
            args: vec![arg],
            ellipsis: None,
        })
    }

    fn plain_block(&mut self, tail: ExprId) -> ExprId {
        self.alloc(Expr::Block {
            id: None,
            statements: Vec::new(),
            tail: Some(tail),
            label: None,
            unsafe_: Unsafe::No,
        })
    }

    /// `for PAT in EXPR BLOCK`:
    /// `match into_iter(EXPR) { mut it => loop { match next(&mut it) { None => break, Some(PAT) => BLOCK } } }`
    pub(super) fn for_loop(&mut self, it: &syn::ExprForLoop) -> ExprId {
        let head = self.expr(&it.expr);
        let iterator = self.call_lang(Lang::IntoIter, vec![head]);
        let end = self.alloc(Expr::Break {
            expr: None,
            label: None,
        });
        let none = self.builder.alloc_pat(Pat::Path(Lang::None.path()));
        let item = self.pat_top(&it.pat);
        let some = self.variant_pat(Lang::Some, item);
        let label = self.label(it.label.as_ref());
        let body = self.with_label(it.label.as_ref(), label, |lowering| {
            lowering.block(&it.body, None)
        });
        let name = self.made_name("iter");
        let at = self.made(&name);
        let by_ref = self.alloc(Expr::Ref {
            expr: at,
            rawness: Rawness::Ref,
            mutability: Mutability::Mut,
        });
        let next = self.call_lang(Lang::Next, vec![by_ref]);
        let arms = vec![arm(none, end), arm(some, body)];
        let inner = self.alloc(Expr::Match { expr: next, arms });
        let inner = self.plain_block(inner);
        let outer = self.alloc(Expr::Loop {
            body: inner,
            label,
            source: LoopSource::ForLoop,
        });
        self.keep_loop(outer, it.label.as_ref(), Some(Span::of(&it.for_token)));
        let pat = self.bind(&name, BindingAnnotation::Mutable);
        self.alloc(Expr::Match {
            expr: iterator,
            arms: vec![arm(pat, outer)],
        })
    }

    /// `while EXPR BLOCK`: `loop { if EXPR BLOCK else { break } }`
    pub(super) fn while_loop(&mut self, it: &syn::ExprWhile) -> ExprId {
        let label = self.label(it.label.as_ref());
        let (condition, then_branch) = self.with_label(it.label.as_ref(), label, |lowering| {
            (lowering.expr(&it.cond), lowering.block(&it.body, None))
        });
        let end = self.alloc(Expr::Break {
            expr: None,
            label: None,
        });
        let body = self.alloc(Expr::If {
            condition,
            then_branch,
            else_branch: Some(end),
        });
        let id = self.alloc(Expr::Loop {
            body,
            label,
            source: LoopSource::While,
        });
        self.keep_loop(id, it.label.as_ref(), Some(Span::of(&it.while_token)));
        id
    }

    pub(super) fn plain_loop(&mut self, it: &syn::ExprLoop) -> ExprId {
        let label = self.label(it.label.as_ref());
        let body = self.with_label(it.label.as_ref(), label, |lowering| {
            lowering.block(&it.body, None)
        });
        let id = self.alloc(Expr::Loop {
            body,
            label,
            source: LoopSource::Loop,
        });
        self.keep_loop(id, it.label.as_ref(), Some(Span::of(&it.loop_token)));
        id
    }

    /// `EXPR?`: `match branch(EXPR) { Continue(val) => val, Break(residual) => return from_residual(residual) }`
    pub(super) fn question(&mut self, it: &syn::ExprTry) -> ExprId {
        let operand = self.expr(&it.expr);
        let branch = self.call_lang(Lang::Branch, vec![operand]);
        let value = self.made_name("val");
        let value_pat = self.bind(&value, BindingAnnotation::Unannotated);
        let go_on = self.variant_pat(Lang::Continue, value_pat);
        let value = self.made(&value);
        let residual = self.made_name("residual");
        let residual_pat = self.bind(&residual, BindingAnnotation::Unannotated);
        let end = self.variant_pat(Lang::Break, residual_pat);
        let residual = self.made(&residual);
        let from = self.call_lang(Lang::FromResidual, vec![residual]);
        let leave = self.alloc(Expr::Return { expr: Some(from) });
        self.alloc(Expr::Match {
            expr: branch,
            arms: vec![arm(go_on, value), arm(end, leave)],
        })
    }

    pub(super) fn match_expr(&mut self, it: &syn::ExprMatch) -> ExprId {
        let expr = self.expr(&it.expr);
        let mut arms = Vec::new();
        for arm in &it.arms {
            let pat = self.pat_top(&arm.pat);
            let guard = arm.guard.as_ref().map(|(_, guard)| self.expr(guard));
            let expr = self.expr(&arm.body);
            arms.push(MatchArm { pat, guard, expr });
        }
        self.alloc(Expr::Match { expr, arms })
    }

    pub(super) fn closure(&mut self, it: &syn::ExprClosure) -> ExprId {
        let params: Vec<_> = it.inputs.iter().map(|pat| self.typed_pat(pat)).collect();
        let (args, arg_types) = params.into_iter().unzip();
        let ret_type = match &it.output {
            syn::ReturnType::Default => None,
            syn::ReturnType::Type(_, ty) => Some(self.ty(ty)),
        };
        let body = self.without_labels(|lowering| lowering.expr(&it.body));
        let closure_kind = match (&it.asyncness, &it.movability) {
            (Some(_), _) => ClosureKind::CoroutineClosure(CoroutineKind::Async),
            (None, Some(_)) => ClosureKind::OldCoroutine(Movability::Static),
            (None, None) => ClosureKind::Closure,
        };
        let expr = self.alloc(Expr::Closure {
            args,
            arg_types,
            ret_type,
            body,
            closure_kind,
            capture_by: capture_by(it.capture.is_some()),
        });
        self.sources.closures.push(ClosureSource {
            expr,
            marks: vec![Span::of(&it.or1_token), Span::of(&it.or2_token)],
        });
        expr
    }

    pub(super) fn async_block(&mut self, it: &syn::ExprAsync) -> ExprId {
        let body = self.without_labels(|lowering| lowering.block(&it.block, None));
        let expr = self.alloc(Expr::Closure {
            args: Vec::new(),
            arg_types: Vec::new(),
            ret_type: None,
            body,
            closure_kind: ClosureKind::Coroutine {
                kind: CoroutineKind::Async,
                source: CoroutineSource::Block,
            },
            capture_by: capture_by(it.capture.is_some()),
        });
        self.sources.closures.push(ClosureSource {
            expr,
            marks: vec![Span::of(&it.async_token)],
        });
        expr
    }

    /// A range: a record of the language, or a call of it.
    pub(super) fn range_expr(&mut self, it: &syn::ExprRange) -> ExprId {
        let from = it.from.as_ref().map(|expr| self.expr(expr));
        let to = it.to.as_ref().map(|expr| self.expr(expr));
        let is_closed = matches!(it.limits, syn::RangeLimits::Closed(_));
        let item = match (from, to, is_closed) {
            (None, None, _) => return self.lang(Lang::RangeFull),
            (Some(from), Some(to), true) => {
                return self.call_lang(Lang::RangeInclusiveNew, vec![from, to])
            }
            (Some(_), Some(_), false) => Lang::Range,
            (Some(_), None, _) => Lang::RangeFrom,
            (None, Some(_), true) => Lang::RangeToInclusive,
            (None, Some(_), false) => Lang::RangeTo,
        };
        let field = |name: &str, expr| RecordLitField {
            name: Name::new(name),
            expr,
        };
        let start = from.map(|from| field("start", from));
        let end = to.map(|to| field("end", to));
        self.alloc(Expr::RecordLit {
            path: item.path(),
            fields: start.into_iter().chain(end).collect(),
            spread: RecordSpread::None,
        })
    }
}

/// An arm without a condition.
fn arm(pat: PatId, expr: ExprId) -> MatchArm {
    MatchArm {
        pat,
        guard: None,
        expr,
    }
}
