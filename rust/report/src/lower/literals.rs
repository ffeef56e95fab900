//! Literals.

use super::Lowering;
use crate::span::Span;
use hir_expr_store::hir::{BuiltinFloat, BuiltinInt, BuiltinUint, Expr, FloatTypeWrapper, Literal};
use hir_expr_store::notation::Notation;
use hir_expr_store::ExprId;

/// A whole number: unsigned where its suffix is, else signed. `None` where it has more than 128 bits.
fn int(literal: &syn::LitInt) -> Option<Literal> {
    let value: u128 = literal.base10_digits().parse().ok()?;
    if let Some(suffix) = BuiltinUint::from_line(literal.suffix()) {
        return Some(Literal::Uint(value, Some(suffix)));
    }
    let suffix = BuiltinInt::from_line(literal.suffix());
    Some(match i128::try_from(value) {
        Ok(value) => Literal::Int(value, suffix),
        // More than i128 has room for: 2^127 behind a `-`, or a u128.
        Err(_) => Literal::Uint(value, None),
    })
}

fn float(literal: &syn::LitFloat) -> Literal {
    let digits = FloatTypeWrapper::new(literal.base10_digits());
    Literal::Float(digits, BuiltinFloat::from_line(literal.suffix()))
}

/// The literal; `None` where syn doesn't know it, as that of a C string.
fn literal(literal: &syn::Lit) -> Option<Literal> {
    match literal {
        syn::Lit::Str(text) => Some(Literal::String(text.value())),
        syn::Lit::ByteStr(bytes) => Some(Literal::ByteString(bytes.value())),
        syn::Lit::Byte(byte) => Some(Literal::Uint(byte.value().into(), Some(BuiltinUint::U8))),
        syn::Lit::Char(c) => Some(Literal::Char(c.value())),
        syn::Lit::Int(number) => int(number),
        syn::Lit::Float(number) => Some(float(number)),
        syn::Lit::Bool(value) => Some(Literal::Bool(value.value)),
        syn::Lit::Verbatim(_) => None,
    }
}

/// The negative of a number.
fn negative(value: Literal) -> Literal {
    match value {
        Literal::Float(text, suffix) => {
            let text = FloatTypeWrapper::new(format!("-{}", text.as_str()));
            Literal::Float(text, suffix)
        }
        other => other.clone().negate().unwrap_or(other),
    }
}

impl Lowering {
    pub(super) fn lit(&mut self, lit: &syn::Lit) -> ExprId {
        match literal(lit) {
            Some(literal) => self.alloc(Expr::Literal(literal)),
            None => self.unknown(Span::of(lit)),
        }
    }

    /// A literal of a pattern, perhaps behind a `-`; `None` where it is no literal.
    pub(super) fn pat_lit(&mut self, expr: &syn::Expr) -> Option<ExprId> {
        match expr {
            syn::Expr::Lit(lit) => Some(self.lit(&lit.lit)),
            syn::Expr::Unary(unary) => match (&unary.op, &*unary.expr) {
                (syn::UnOp::Neg(_), syn::Expr::Lit(lit)) => {
                    let literal = negative(literal(&lit.lit)?);
                    Some(self.alloc(Expr::Literal(literal)))
                }
                _ => None,
            },
            _ => None,
        }
    }
}
