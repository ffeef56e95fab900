//! Operators of expressions and patterns.

/// Operators on numbers and bits. Each may also come before `=`.
#[derive(Clone, Copy, PartialEq, Eq, Hash, Debug)]
#[cfg_attr(hir_serde, derive(serde::Serialize, serde::Deserialize))]
pub enum ArithOp {
    /// `+`
    Add,
    /// `-`
    Sub,
    /// `*`
    Mul,
    /// `/`
    Div,
    /// `%`
    Rem,
    /// `<<`
    Shl,
    /// `>>`
    Shr,
    /// `^`
    BitXor,
    /// `|`
    BitOr,
    /// `&`
    BitAnd,
}

/// Operators on truth values, which don't compute their right side where the left side decides.
#[derive(Clone, Copy, PartialEq, Eq, Hash, Debug)]
#[cfg_attr(hir_serde, derive(serde::Serialize, serde::Deserialize))]
pub enum LogicOp {
    /// `&&`
    And,
    /// `||`
    Or,
}

/// Which side of a comparison has to be the smaller.
#[derive(Clone, Copy, PartialEq, Eq, Hash, Debug)]
#[cfg_attr(hir_serde, derive(serde::Serialize, serde::Deserialize))]
pub enum Ordering {
    /// `<` and `<=`
    Less,
    /// `>` and `>=`
    Greater,
}

/// Comparisons.
#[derive(Clone, Copy, PartialEq, Eq, Hash, Debug)]
#[cfg_attr(hir_serde, derive(serde::Serialize, serde::Deserialize))]
pub enum CmpOp {
    /// `==`, or `!=` where it is negated.
    Eq {
        /// Whether it is `!=`.
        negated: bool,
    },
    /// `<` and `>` where it is strict, else `<=` and `>=`.
    Ord {
        /// Which side has to be the smaller.
        ordering: Ordering,
        /// Whether the two sides may not be equal.
        strict: bool,
    },
}

/// Operators between two expressions.
#[derive(Clone, Copy, PartialEq, Eq, Hash, Debug)]
#[cfg_attr(hir_serde, derive(serde::Serialize, serde::Deserialize))]
pub enum BinaryOp {
    /// `&&` or `||`
    LogicOp(LogicOp),
    /// An operator on numbers or bits.
    ArithOp(ArithOp),
    /// A comparison.
    CmpOp(CmpOp),
    /// `=`, behind the operator where there is one.
    Assignment {
        /// The operator before `=`.
        op: Option<ArithOp>,
    },
}

/// Operators of ranges.
#[derive(Clone, Copy, PartialEq, Eq, Hash, Debug)]
#[cfg_attr(hir_serde, derive(serde::Serialize, serde::Deserialize))]
pub enum RangeOp {
    /// `..`, without the end.
    Exclusive,
    /// `..=`, with the end.
    Inclusive,
}

/// Operators before an expression.
#[derive(Clone, Copy, PartialEq, Eq, Hash, Debug)]
#[cfg_attr(hir_serde, derive(serde::Serialize, serde::Deserialize))]
pub enum UnaryOp {
    /// `*`
    Deref,
    /// `!`
    Not,
    /// `-`
    Neg,
}
