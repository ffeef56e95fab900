//! How tightly expressions hold together.

/// How tightly an expression holds together: the later, the tighter.
///
/// ```
/// use hir_expr_store::ExprPrecedence;
///
/// assert!(ExprPrecedence::Sum < ExprPrecedence::Product);
/// ```
#[derive(Clone, Copy, PartialEq, Eq, PartialOrd, Ord, Hash, Debug)]
#[cfg_attr(hir_serde, derive(serde::Serialize, serde::Deserialize))]
pub enum ExprPrecedence {
    /// `return`, `break`, `yield`, closures and the like.
    Jump,
    /// `=` and `+=` and the like.
    Assign,
    /// `..` and `..=`.
    Range,
    /// `||`
    LOr,
    /// `&&`
    LAnd,
    /// `==`, `!=`, `<`, `<=`, `>`, `>=`
    Compare,
    /// `|`
    BitOr,
    /// `^`
    BitXor,
    /// `&`
    BitAnd,
    /// `<<` and `>>`
    Shift,
    /// `+` and `-`
    Sum,
    /// `*`, `/` and `%`
    Product,
    /// `as`
    Cast,
    /// `-`, `*`, `!`, `&`, `let` before an expression.
    Prefix,
    /// Calls, fields, indexes, `.await` and `?` after an expression.
    Postfix,
    /// Paths, literals, blocks and all else that is complete by itself.
    Unambiguous,
}

impl ExprPrecedence {
    /// All, from the loosest to the tightest.
    pub const ALL: [ExprPrecedence; 16] = [
        ExprPrecedence::Jump,
        ExprPrecedence::Assign,
        ExprPrecedence::Range,
        ExprPrecedence::LOr,
        ExprPrecedence::LAnd,
        ExprPrecedence::Compare,
        ExprPrecedence::BitOr,
        ExprPrecedence::BitXor,
        ExprPrecedence::BitAnd,
        ExprPrecedence::Shift,
        ExprPrecedence::Sum,
        ExprPrecedence::Product,
        ExprPrecedence::Cast,
        ExprPrecedence::Prefix,
        ExprPrecedence::Postfix,
        ExprPrecedence::Unambiguous,
    ];

    /// The precedence of this name.
    pub(crate) fn from_text(text: &str) -> Option<ExprPrecedence> {
        ExprPrecedence::ALL
            .into_iter()
            .find(|it| format!("{it:?}") == text)
    }
}
