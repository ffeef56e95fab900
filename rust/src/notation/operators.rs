//! Operators, as they are written between and before expressions.

use super::{word_tables, Line, Notation, Words};
use crate::hir::{ArithOp, BinaryOp, CmpOp, LogicOp, Ordering, UnaryOp};

word_tables! {
    UnaryOp {
        UnaryOp::Deref => "*" = UnaryOp::Deref,
        UnaryOp::Not => "!" = UnaryOp::Not,
        UnaryOp::Neg => "-" = UnaryOp::Neg,
    }

    ArithOp {
        ArithOp::Add => "+" = ArithOp::Add,
        ArithOp::Sub => "-" = ArithOp::Sub,
        ArithOp::Mul => "*" = ArithOp::Mul,
        ArithOp::Div => "/" = ArithOp::Div,
        ArithOp::Rem => "%" = ArithOp::Rem,
        ArithOp::Shl => "<<" = ArithOp::Shl,
        ArithOp::Shr => ">>" = ArithOp::Shr,
        ArithOp::BitXor => "^" = ArithOp::BitXor,
        ArithOp::BitOr => "|" = ArithOp::BitOr,
        ArithOp::BitAnd => "&" = ArithOp::BitAnd,
    }

    LogicOp {
        LogicOp::Or => "||" = LogicOp::Or,
        LogicOp::And => "&&" = LogicOp::And,
    }

    CmpOp {
        CmpOp::Eq { negated: false } => "==" = CmpOp::Eq { negated: false },
        CmpOp::Eq { negated: true } => "!=" = CmpOp::Eq { negated: true },
        CmpOp::Ord { ordering: Ordering::Less, strict: true } => "<" = ordering(Ordering::Less, true),
        CmpOp::Ord { ordering: Ordering::Less, strict: false } => "<=" = ordering(Ordering::Less, false),
        CmpOp::Ord { ordering: Ordering::Greater, strict: true } => ">" = ordering(Ordering::Greater, true),
        CmpOp::Ord { ordering: Ordering::Greater, strict: false } => ">=" = ordering(Ordering::Greater, false),
    }
}

fn ordering(ordering: Ordering, strict: bool) -> CmpOp {
    CmpOp::Ord { ordering, strict }
}

/// `=`, or an operator on numbers with `=` behind it.
fn read_assignment(words: &mut Words<'_>) -> Option<BinaryOp> {
    let word = words.next_word()?;
    let op = match word.strip_suffix('=')? {
        "" => None,
        op => Some(ArithOp::from_line(op)?),
    };
    Some(BinaryOp::Assignment { op })
}

impl Notation for BinaryOp {
    fn write(&self, line: &mut Line) {
        match self {
            BinaryOp::LogicOp(op) => op.write(line),
            BinaryOp::ArithOp(op) => op.write(line),
            BinaryOp::CmpOp(op) => op.write(line),
            BinaryOp::Assignment { op: None } => line.word('='),
            BinaryOp::Assignment { op: Some(op) } => {
                op.write(line);
                line.join('=');
            }
        }
    }

    fn read(words: &mut Words<'_>) -> Option<BinaryOp> {
        words
            .attempt(|words| Some(BinaryOp::LogicOp(Notation::read(words)?)))
            .or_else(|| words.attempt(|words| Some(BinaryOp::ArithOp(Notation::read(words)?))))
            .or_else(|| words.attempt(|words| Some(BinaryOp::CmpOp(Notation::read(words)?))))
            .or_else(|| words.attempt(read_assignment))
    }
}
