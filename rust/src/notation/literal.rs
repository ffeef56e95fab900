//! Literals, as the words behind `expr` have them.

use super::{word_tables, Line, Notation, Words};
use crate::hir::{BuiltinFloat, BuiltinInt, BuiltinUint, FloatTypeWrapper, Literal};

word_tables! {
    BuiltinInt {
        BuiltinInt::Isize => "isize" = BuiltinInt::Isize,
        BuiltinInt::I8 => "i8" = BuiltinInt::I8,
        BuiltinInt::I16 => "i16" = BuiltinInt::I16,
        BuiltinInt::I32 => "i32" = BuiltinInt::I32,
        BuiltinInt::I64 => "i64" = BuiltinInt::I64,
        BuiltinInt::I128 => "i128" = BuiltinInt::I128,
    }

    BuiltinUint {
        BuiltinUint::Usize => "usize" = BuiltinUint::Usize,
        BuiltinUint::U8 => "u8" = BuiltinUint::U8,
        BuiltinUint::U16 => "u16" = BuiltinUint::U16,
        BuiltinUint::U32 => "u32" = BuiltinUint::U32,
        BuiltinUint::U64 => "u64" = BuiltinUint::U64,
        BuiltinUint::U128 => "u128" = BuiltinUint::U128,
    }

    BuiltinFloat {
        BuiltinFloat::F16 => "f16" = BuiltinFloat::F16,
        BuiltinFloat::F32 => "f32" = BuiltinFloat::F32,
        BuiltinFloat::F64 => "f64" = BuiltinFloat::F64,
        BuiltinFloat::F128 => "f128" = BuiltinFloat::F128,
    }
}

/// The suffix at the line's end, where there is one.
fn read_suffix<T: Notation>(words: &mut Words<'_>) -> Option<Option<T>> {
    if words.is_end() {
        return Some(None);
    }
    Some(Some(T::read(words)?))
}

fn write_suffix<T: Notation>(suffix: Option<&T>, line: &mut Line) {
    if let Some(suffix) = suffix {
        suffix.write(line);
    }
}

/// Whether a text is of digits and `.` alone, and not empty.
fn is_decimal(text: &str) -> bool {
    let mut words = Words::new(text);
    !words.decimal().is_empty() && words.is_end()
}

/// A text of one character.
fn only_char(text: &str) -> Option<char> {
    let mut chars = text.chars();
    let c = chars.next()?;
    chars.next().is_none().then_some(c)
}

fn read_quoted(words: &mut Words<'_>) -> Option<String> {
    words.begin()?;
    words.quoted()
}

fn read_bytes(words: &mut Words<'_>) -> Option<Vec<u8>> {
    words.begin()?;
    words.quoted_bytes()
}

fn read_bool(words: &mut Words<'_>) -> Option<bool> {
    match words.next_keyword()? {
        "true" => Some(true),
        "false" => Some(false),
        _ => None,
    }
}

fn read_float(words: &mut Words<'_>) -> Option<FloatTypeWrapper> {
    words.begin()?;
    if words.is_at("\"") {
        return Some(FloatTypeWrapper::new(words.quoted()?));
    }
    let digits = words.decimal();
    (!digits.is_empty()).then(|| FloatTypeWrapper::new(digits))
}

/// The literal of the form that this word names.
pub(super) fn read_form(form: &str, words: &mut Words<'_>) -> Option<Literal> {
    match form {
        "string" => Some(Literal::String(read_quoted(words)?)),
        "bytes" => Some(Literal::ByteString(read_bytes(words)?)),
        "cstring" => Some(Literal::CString(read_bytes(words)?)),
        "char" => Some(Literal::Char(only_char(&read_quoted(words)?)?)),
        "bool" => Some(Literal::Bool(read_bool(words)?)),
        "int" => {
            words.begin()?;
            Some(Literal::Int(words.int()?, read_suffix(words)?))
        }
        "uint" => {
            words.begin()?;
            Some(Literal::Uint(words.big()?, read_suffix(words)?))
        }
        "float" => Some(Literal::Float(read_float(words)?, read_suffix(words)?)),
        _ => None,
    }
}

/// Its form and its value, as `int -1 i32`.
impl Notation for Literal {
    fn write(&self, line: &mut Line) {
        match self {
            Literal::String(text) => {
                line.keyword("string");
                line.quoted(text);
            }
            Literal::ByteString(bytes) => {
                line.keyword("bytes");
                line.quoted_bytes(bytes);
            }
            Literal::CString(bytes) => {
                line.keyword("cstring");
                line.quoted_bytes(bytes);
            }
            Literal::Char(c) => {
                line.keyword("char");
                line.quoted(c.encode_utf8(&mut [0; 4]));
            }
            Literal::Bool(value) => {
                line.keyword("bool");
                line.word(value);
            }
            Literal::Int(value, suffix) => {
                line.keyword("int");
                line.word(value);
                write_suffix(suffix.as_ref(), line);
            }
            Literal::Uint(value, suffix) => {
                line.keyword("uint");
                line.word(value);
                write_suffix(suffix.as_ref(), line);
            }
            Literal::Float(value, suffix) => {
                line.keyword("float");
                if is_decimal(value.as_str()) {
                    line.word(value.as_str());
                } else {
                    line.quoted(value.as_str());
                }
                write_suffix(suffix.as_ref(), line);
            }
        }
    }

    fn read(words: &mut Words<'_>) -> Option<Literal> {
        let form = words.next_keyword()?;
        read_form(form, words)
    }
}
