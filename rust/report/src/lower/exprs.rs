//! Expressions.

use super::assignments::is_underscore;
use super::paths::{local_name, name_of};
use super::pats::member_name;
use super::verbatim::Inner;
use super::{Lowering, Use};
use crate::span::Span;
use hir_expr_store::hir::{
    ArithOp, Array, BinaryOp, CmpOp, ConstRef, Expr, GenericArg, GenericArgs, LogicOp, Mutability,
    Ordering, Rawness, RecordLitField, RecordSpread, UnaryOp, Unsafe,
};
use hir_expr_store::{ExprId, ExprOrPatId};
use proc_macro2::TokenStream;

/// An operator between two expressions. `+=` and the like are assignments.
fn binary_op(op: &syn::BinOp) -> BinaryOp {
    let arith = BinaryOp::ArithOp;
    let cmp = |ordering, strict| BinaryOp::CmpOp(CmpOp::Ord { ordering, strict });
    let assign = |op| BinaryOp::Assignment { op: Some(op) };
    match op {
        syn::BinOp::Add(_) => arith(ArithOp::Add),
        syn::BinOp::Sub(_) => arith(ArithOp::Sub),
        syn::BinOp::Mul(_) => arith(ArithOp::Mul),
        syn::BinOp::Div(_) => arith(ArithOp::Div),
        syn::BinOp::Rem(_) => arith(ArithOp::Rem),
        syn::BinOp::And(_) => BinaryOp::LogicOp(LogicOp::And),
        syn::BinOp::Or(_) => BinaryOp::LogicOp(LogicOp::Or),
        syn::BinOp::BitXor(_) => arith(ArithOp::BitXor),
        syn::BinOp::BitAnd(_) => arith(ArithOp::BitAnd),
        syn::BinOp::BitOr(_) => arith(ArithOp::BitOr),
        syn::BinOp::Shl(_) => arith(ArithOp::Shl),
        syn::BinOp::Shr(_) => arith(ArithOp::Shr),
        syn::BinOp::Eq(_) => BinaryOp::CmpOp(CmpOp::Eq { negated: false }),
        syn::BinOp::Ne(_) => BinaryOp::CmpOp(CmpOp::Eq { negated: true }),
        syn::BinOp::Lt(_) => cmp(Ordering::Less, true),
        syn::BinOp::Le(_) => cmp(Ordering::Less, false),
        syn::BinOp::Gt(_) => cmp(Ordering::Greater, true),
        syn::BinOp::Ge(_) => cmp(Ordering::Greater, false),
        syn::BinOp::AddEq(_) => assign(ArithOp::Add),
        syn::BinOp::SubEq(_) => assign(ArithOp::Sub),
        syn::BinOp::MulEq(_) => assign(ArithOp::Mul),
        syn::BinOp::DivEq(_) => assign(ArithOp::Div),
        syn::BinOp::RemEq(_) => assign(ArithOp::Rem),
        syn::BinOp::BitXorEq(_) => assign(ArithOp::BitXor),
        syn::BinOp::BitAndEq(_) => assign(ArithOp::BitAnd),
        syn::BinOp::BitOrEq(_) => assign(ArithOp::BitOr),
        syn::BinOp::ShlEq(_) => assign(ArithOp::Shl),
        syn::BinOp::ShrEq(_) => assign(ArithOp::Shr),
    }
}

impl Lowering {
    pub(super) fn exprs<'a>(
        &mut self,
        exprs: impl IntoIterator<Item = &'a syn::Expr>,
    ) -> Vec<ExprId> {
        exprs.into_iter().map(|expr| self.expr(expr)).collect()
    }

    fn opt(&mut self, expr: Option<&syn::Expr>) -> Option<ExprId> {
        expr.map(|expr| self.expr(expr))
    }

    fn binary(&mut self, left: &syn::Expr, op: &syn::BinOp, right: &syn::Expr) -> Expr {
        Expr::BinaryOp {
            lhs: self.expr(left),
            rhs: self.expr(right),
            op: Some(binary_op(op)),
        }
    }

    /// A path. One name may mean a variable, and so may `self`.
    pub(super) fn path_expr(&mut self, it: &syn::ExprPath) -> ExprId {
        let path = self.path(it.qself.as_ref(), &it.path);
        let name = local_name(it, &path);
        let at = self.alloc(Expr::Path(path));
        if let Some(name) = name {
            let span = Span::of(&it.path);
            let path = ExprOrPatId::ExprId(at);
            self.sources.uses.push(Use {
                path,
                at,
                name,
                span,
                is_in_constant: self.is_in_constant,
            });
        }
        at
    }

    fn record_lit(&mut self, it: &syn::ExprStruct) -> Expr {
        let path = self.path(None, &it.path);
        let mut fields = Vec::new();
        for field in &it.fields {
            self.keep_short_field(field);
            fields.push(RecordLitField {
                name: member_name(&field.member),
                expr: self.expr(&field.expr),
            });
        }
        let spread = match (&it.rest, &it.dot2_token) {
            (Some(rest), _) => RecordSpread::Expr(self.expr(rest)),
            (None, Some(_)) => RecordSpread::FieldDefaults,
            (None, None) => RecordSpread::None,
        };
        Expr::RecordLit {
            path,
            fields,
            spread,
        }
    }

    /// Keeps the place of a field that is written as one name.
    pub(super) fn keep_short_field(&mut self, field: &syn::FieldValue) {
        if field.colon_token.is_none() {
            let start = Span::of(&field.expr).start;
            self.sources.short_fields.insert(start, start);
        }
    }

    fn break_expr(&mut self, it: &syn::ExprBreak) -> ExprId {
        let expr = self.opt(it.expr.as_deref());
        let label = self.label_in_scope(it.label.as_ref());
        let id = self.alloc(Expr::Break { expr, label });
        self.keep_jump(id, false, Span::of(&it.break_token), it.label.as_ref());
        id
    }

    fn continue_expr(&mut self, it: &syn::ExprContinue) -> ExprId {
        let label = self.label_in_scope(it.label.as_ref());
        let id = self.alloc(Expr::Continue { label });
        self.keep_jump(id, true, Span::of(&it.continue_token), it.label.as_ref());
        id
    }

    fn method_call(&mut self, it: &syn::ExprMethodCall) -> Expr {
        let receiver = self.expr(&it.receiver);
        let generic_args = it.turbofish.as_ref().map(|turbofish| {
            let mut args = GenericArgs::default();
            for arg in &turbofish.args {
                match arg {
                    syn::GenericMethodArgument::Type(ty) => {
                        let ty = self.ty(ty);
                        args.args.push(GenericArg::Ty(ty));
                    }
                    syn::GenericMethodArgument::Const(expr) => {
                        let expr = self.constant(|lowering| lowering.expr(expr));
                        args.args.push(GenericArg::Const(ConstRef { expr }));
                    }
                }
            }
            Box::new(args)
        });
        Expr::MethodCall {
            receiver,
            method_name: name_of(&it.method),
            args: self.exprs(&it.args),
            generic_args,
        }
    }

    fn unary(&mut self, it: &syn::ExprUnary) -> Expr {
        Expr::UnaryOp {
            expr: self.expr(&it.expr),
            op: match it.op {
                syn::UnOp::Deref(_) => UnaryOp::Deref,
                syn::UnOp::Not(_) => UnaryOp::Not,
                syn::UnOp::Neg(_) => UnaryOp::Neg,
            },
        }
    }

    fn if_expr(&mut self, it: &syn::ExprIf) -> Expr {
        Expr::If {
            condition: self.expr(&it.cond),
            then_branch: self.block(&it.then_branch, None),
            else_branch: self.opt(it.else_branch.as_ref().map(|(_, expr)| &**expr)),
        }
    }

    fn labelled_block(&mut self, it: &syn::ExprBlock) -> ExprId {
        let label = self.label(it.label.as_ref());
        let id = self.with_label(it.label.as_ref(), label, |lowering| {
            lowering.block(&it.block, label)
        });
        if it.label.is_some() {
            self.keep_loop(id, it.label.as_ref(), None);
        }
        id
    }

    /// What syn gives as tokens: `_`, `const {}`, `&raw`, and what it doesn't know.
    fn verbatim(&mut self, expr: &syn::Expr, tokens: &TokenStream) -> ExprId {
        if is_underscore(expr) {
            return self.alloc(Expr::Underscore);
        }
        if let Ok(it) = syn::parse2::<Inner>(tokens.clone()) {
            return match it {
                Inner::Const(block) => {
                    let body = self.constant(|lowering| lowering.block(&block, None));
                    self.alloc(Expr::Const(body))
                }
                Inner::Raw(is_mutable, expr) => {
                    let expr = self.expr(&expr);
                    self.alloc(Expr::Ref {
                        expr,
                        rawness: Rawness::RawPtr,
                        mutability: Mutability::from_mutable(is_mutable),
                    })
                }
            };
        }
        self.keep_tokens(tokens.clone());
        self.unknown(Span::of(tokens))
    }

    #[allow(clippy::too_many_lines)] // One arm a form.
    pub(super) fn expr(&mut self, expr: &syn::Expr) -> ExprId {
        let lowered = match expr {
            syn::Expr::Group(it) => return self.expr(&it.expr),
            syn::Expr::Paren(it) => return self.expr(&it.expr),
            syn::Expr::Type(it) => return self.expr(&it.expr),
            // `box` and `try {}` are of no edition: what they stand around keeps its names.
            syn::Expr::Box(it) => return self.expr(&it.expr),
            syn::Expr::TryBlock(it) => return self.block(&it.block, None),
            syn::Expr::Assign(it) => return self.assignment(&it.left, &it.right),
            syn::Expr::Async(it) => return self.async_block(it),
            syn::Expr::Block(it) => return self.labelled_block(it),
            syn::Expr::Break(it) => return self.break_expr(it),
            syn::Expr::Closure(it) => return self.closure(it),
            syn::Expr::Continue(it) => return self.continue_expr(it),
            syn::Expr::ForLoop(it) => return self.for_loop(it),
            syn::Expr::Lit(it) => return self.lit(&it.lit),
            syn::Expr::Loop(it) => return self.plain_loop(it),
            syn::Expr::Macro(it) => return self.macro_call(&it.mac),
            syn::Expr::Match(it) => return self.match_expr(it),
            syn::Expr::Path(it) => return self.path_expr(it),
            syn::Expr::Range(it) => return self.range_expr(it),
            syn::Expr::Try(it) => return self.question(it),
            syn::Expr::Unsafe(it) => return self.block_of(&it.block, None, Unsafe::Yes),
            syn::Expr::While(it) => return self.while_loop(it),
            syn::Expr::Verbatim(tokens) => return self.verbatim(expr, tokens),
            syn::Expr::Array(it) => Expr::Array(Array::ElementList {
                elements: self.exprs(&it.elems),
            }),
            syn::Expr::AssignOp(it) => self.binary(&it.left, &it.op, &it.right),
            syn::Expr::Await(it) => Expr::Await {
                expr: self.expr(&it.base),
            },
            syn::Expr::Binary(it) => self.binary(&it.left, &it.op, &it.right),
            syn::Expr::Call(it) => Expr::Call {
                callee: self.expr(&it.func),
                args: self.exprs(&it.args),
            },
            syn::Expr::Cast(it) => Expr::Cast {
                expr: self.expr(&it.expr),
                type_ref: self.ty(&it.ty),
            },
            syn::Expr::Field(it) => Expr::Field {
                expr: self.expr(&it.base),
                name: member_name(&it.member),
            },
            syn::Expr::If(it) => self.if_expr(it),
            syn::Expr::Index(it) => Expr::Index {
                base: self.expr(&it.expr),
                index: self.expr(&it.index),
            },
            syn::Expr::Let(it) => {
                // The value doesn't see what the pattern binds: the store's scopes say so, whatever is lowered first.
                let expr = self.expr(&it.expr);
                let pat = self.pat_top(&it.pat);
                Expr::Let { pat, expr }
            }
            syn::Expr::MethodCall(it) => self.method_call(it),
            syn::Expr::Reference(it) => Expr::Ref {
                expr: self.expr(&it.expr),
                rawness: Rawness::Ref,
                mutability: Mutability::from_mutable(it.mutability.is_some()),
            },
            syn::Expr::Repeat(it) => Expr::Array(Array::Repeat {
                initializer: self.expr(&it.expr),
                repeat: self.constant(|lowering| lowering.expr(&it.len)),
            }),
            syn::Expr::Return(it) => Expr::Return {
                expr: self.opt(it.expr.as_deref()),
            },
            syn::Expr::Struct(it) => self.record_lit(it),
            syn::Expr::Tuple(it) => Expr::Tuple {
                exprs: self.exprs(&it.elems),
            },
            syn::Expr::Unary(it) => self.unary(it),
            syn::Expr::Yield(it) => Expr::Yield {
                expr: self.opt(it.expr.as_deref()),
            },
            // What later versions of syn add.
            _ => return self.unknown(Span::of(expr)),
        };
        self.alloc(lowered)
    }
}
