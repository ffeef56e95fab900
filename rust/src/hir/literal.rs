//! Literals: texts, bytes, characters, truth values and numbers.

/// A type of signed numbers.
#[derive(Clone, Copy, PartialEq, Eq, Hash, Debug)]
#[cfg_attr(hir_serde, derive(serde::Serialize, serde::Deserialize))]
pub enum BuiltinInt {
    /// `isize`
    Isize,
    /// `i8`
    I8,
    /// `i16`
    I16,
    /// `i32`
    I32,
    /// `i64`
    I64,
    /// `i128`
    I128,
}

/// A type of unsigned numbers.
#[derive(Clone, Copy, PartialEq, Eq, Hash, Debug)]
#[cfg_attr(hir_serde, derive(serde::Serialize, serde::Deserialize))]
pub enum BuiltinUint {
    /// `usize`
    Usize,
    /// `u8`
    U8,
    /// `u16`
    U16,
    /// `u32`
    U32,
    /// `u64`
    U64,
    /// `u128`
    U128,
}

/// A type of floating point numbers.
#[derive(Clone, Copy, PartialEq, Eq, Hash, Debug)]
#[cfg_attr(hir_serde, derive(serde::Serialize, serde::Deserialize))]
pub enum BuiltinFloat {
    /// `f16`
    F16,
    /// `f32`
    F32,
    /// `f64`
    F64,
    /// `f128`
    F128,
}

/// A floating point number, kept as its text, so that it is rounded once, by whoever reads it as a number.
#[derive(Clone, PartialEq, Eq, Debug)]
#[cfg_attr(hir_serde, derive(serde::Serialize, serde::Deserialize))]
pub struct FloatTypeWrapper(String);

impl FloatTypeWrapper {
    /// The number with this text.
    pub fn new(text: impl Into<String>) -> FloatTypeWrapper {
        FloatTypeWrapper(text.into())
    }

    /// The text of the number.
    pub fn as_str(&self) -> &str {
        &self.0
    }
}

/// A literal. A number may have its type written behind it.
#[derive(Clone, PartialEq, Eq, Debug)]
#[cfg_attr(hir_serde, derive(serde::Serialize, serde::Deserialize))]
pub enum Literal {
    /// A text.
    String(String),
    /// Bytes.
    ByteString(Vec<u8>),
    /// The bytes of a C string, without the zero at its end.
    CString(Vec<u8>),
    /// A character.
    Char(char),
    /// A truth value.
    Bool(bool),
    /// A signed number.
    Int(i128, Option<BuiltinInt>),
    /// An unsigned number.
    Uint(u128, Option<BuiltinUint>),
    /// A floating point number.
    Float(FloatTypeWrapper, Option<BuiltinFloat>),
}

impl Literal {
    /// Negates an `Int`; the least number stays as it is. `None` for every other literal.
    #[must_use]
    pub fn negate(self) -> Option<Literal> {
        match self {
            Literal::Int(value, suffix) => Some(Literal::Int(value.wrapping_neg(), suffix)),
            Literal::String(_)
            | Literal::ByteString(_)
            | Literal::CString(_)
            | Literal::Char(_)
            | Literal::Bool(_)
            | Literal::Uint(..)
            | Literal::Float(..) => None,
        }
    }
}
