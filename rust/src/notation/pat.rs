//! Patterns, as the words behind `pat` have them.

use super::{Line, Notation, Words};
use crate::hir::{Mutability, Pat, RangeOp, RecordFieldPat};

/// The place of `..` among members, where there is one.
fn write_ellipsis(ellipsis: Option<u32>, line: &mut Line) {
    if let Some(place) = ellipsis {
        line.word(format_args!("..{place}"));
    }
}

fn read_ellipsis(words: &mut Words<'_>) -> Option<Option<u32>> {
    if words.prefix("..") {
        return Some(Some(words.number()?));
    }
    Some(None)
}

fn read_field(words: &mut Words<'_>) -> Option<RecordFieldPat> {
    Some(RecordFieldPat {
        name: words.name()?,
        pat: words.part_id()?,
    })
}

fn read_range_type(words: &mut Words<'_>) -> RangeOp {
    if words.flag("exclusive") {
        RangeOp::Exclusive
    } else {
        RangeOp::Inclusive
    }
}

impl Notation for Pat {
    fn write(&self, line: &mut Line) {
        match self {
            Pat::Missing => line.keyword("missing"),
            Pat::Rest => line.keyword("rest"),
            Pat::Wild => line.keyword("wild"),
            Pat::NotNull => line.keyword("not-null"),
            Pat::Tuple { args, ellipsis } => {
                line.keyword("tuple");
                line.ids(args);
                write_ellipsis(*ellipsis, line);
            }
            Pat::Or(args) => {
                line.keyword("or");
                line.ids(args);
            }
            Pat::Record {
                path,
                args,
                ellipsis,
            } => {
                line.keyword("record");
                path.write(line);
                for field in args {
                    line.name(&field.name);
                    line.join(':');
                    line.join_id(field.pat);
                }
                line.flag(*ellipsis, "..");
            }
            Pat::Range {
                start,
                end,
                range_type,
            } => {
                line.keyword("range");
                line.opt_id(*start);
                line.opt_id(*end);
                line.flag(*range_type == RangeOp::Exclusive, "exclusive");
            }
            Pat::Slice {
                prefix,
                slice,
                suffix,
            } => {
                line.keyword("slice");
                line.ids(prefix);
                line.opt_id(*slice);
                line.ids(suffix);
            }
            Pat::Path(path) => {
                line.keyword("path");
                path.write(line);
            }
            Pat::Lit(expr) => {
                line.keyword("lit");
                line.id(*expr);
            }
            Pat::Expr(expr) => {
                line.keyword("expr");
                line.id(*expr);
            }
            Pat::Bind { id, subpat } => {
                line.keyword("bind");
                line.id(*id);
                line.opt_id(*subpat);
            }
            Pat::TupleStruct {
                path,
                args,
                ellipsis,
            } => {
                line.keyword("tstruct");
                path.write(line);
                line.ids(args);
                write_ellipsis(*ellipsis, line);
            }
            Pat::Ref { pat, mutability } => {
                line.keyword("ref");
                line.id(*pat);
                line.flag(mutability.is_mut(), "mut");
            }
            Pat::Box { inner } => {
                line.keyword("box");
                line.id(*inner);
            }
            Pat::Deref { inner } => {
                line.keyword("deref");
                line.id(*inner);
            }
        }
    }

    fn read(words: &mut Words<'_>) -> Option<Pat> {
        Some(match words.next_keyword()? {
            "missing" => Pat::Missing,
            "rest" => Pat::Rest,
            "wild" => Pat::Wild,
            "not-null" => Pat::NotNull,
            "tuple" => Pat::Tuple {
                args: words.next_ids()?,
                ellipsis: read_ellipsis(words)?,
            },
            "or" => Pat::Or(words.next_ids()?),
            "record" => Pat::Record {
                path: Notation::read(words)?,
                args: words.spaced(read_field)?,
                ellipsis: words.flag(".."),
            },
            "range" => Pat::Range {
                start: words.next_opt_id()?,
                end: words.next_opt_id()?,
                range_type: read_range_type(words),
            },
            "slice" => Pat::Slice {
                prefix: words.next_ids()?,
                slice: words.next_opt_id()?,
                suffix: words.next_ids()?,
            },
            "path" => Pat::Path(Notation::read(words)?),
            "lit" => Pat::Lit(words.next_id()?),
            "expr" => Pat::Expr(words.next_id()?),
            "bind" => Pat::Bind {
                id: words.next_id()?,
                subpat: words.next_opt_id()?,
            },
            "tstruct" => Pat::TupleStruct {
                path: Notation::read(words)?,
                args: words.next_ids()?,
                ellipsis: read_ellipsis(words)?,
            },
            "ref" => Pat::Ref {
                pat: words.next_id()?,
                mutability: Mutability::from_mutable(words.flag("mut")),
            },
            "box" => Pat::Box {
                inner: words.next_id()?,
            },
            "deref" => Pat::Deref {
                inner: words.next_id()?,
            },
            _ => return None,
        })
    }
}
