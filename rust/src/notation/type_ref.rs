//! Types, as the words behind `type` have them, and calling conventions.

use super::path::{read_binder, read_bounds, write_bounds};
use super::{Line, Notation, Words};
use crate::hir::{ArrayType, ConstRef, ExternAbi, FnType, Mutability, RefType, TypeRef};
use crate::ids::TypeRefId;
use crate::name::Name;

/// A word behind `extern:`; nothing for the convention of Rust.
pub(crate) fn write_abi(abi: &ExternAbi, line: &mut Line) {
    match abi {
        ExternAbi::Rust => {}
        ExternAbi::C => line.keyword("extern:C"),
        ExternAbi::CUnwind => line.keyword("extern:C-unwind"),
        ExternAbi::System => line.keyword("extern:system"),
        ExternAbi::SystemUnwind => line.keyword("extern:system-unwind"),
        ExternAbi::Named(text) => {
            line.keyword("extern:");
            line.join_quoted(text);
        }
    }
}

/// The convention of Rust, where `extern:` doesn't come next. Before a number it is the name of a parameter.
fn read_abi(words: &mut Words<'_>) -> Option<ExternAbi> {
    let is_there = words.attempt(|words| {
        words.begin()?;
        words.expect("extern:")?;
        (!words.rest().starts_with(|c: char| c.is_ascii_digit())).then_some(())
    });
    if is_there.is_none() {
        return Some(ExternAbi::Rust);
    }
    if words.is_at("\"") {
        return Some(ExternAbi::Named(words.quoted()?));
    }
    match words.keyword() {
        "Rust" => Some(ExternAbi::Rust),
        "C" => Some(ExternAbi::C),
        "C-unwind" => Some(ExternAbi::CUnwind),
        "system" => Some(ExternAbi::System),
        "system-unwind" => Some(ExternAbi::SystemUnwind),
        _ => None,
    }
}

fn read_mut(words: &mut Words<'_>) -> Mutability {
    Mutability::from_mutable(words.flag("mut"))
}

/// A type, perhaps behind a name and a colon.
fn read_param(words: &mut Words<'_>) -> Option<(Option<Name>, TypeRefId)> {
    let name = if words.is_at_name() {
        let name = words.name()?;
        words.expect(":")?;
        Some(name)
    } else {
        None
    };
    Some((name, words.id()?))
}

fn read_fn(words: &mut Words<'_>) -> Option<FnType> {
    Some(FnType {
        binder: if words.prefix("for<") {
            Some(read_binder(words)?)
        } else {
            None
        },
        is_unsafe: words.flag("unsafe"),
        abi: read_abi(words)?,
        is_varargs: words.flag("varargs"),
        params: words.spaced(read_param)?,
    })
}

fn write_fn(function: &FnType, line: &mut Line) {
    if let Some(names) = &function.binder {
        line.keyword("for<");
        line.join_names(names);
        line.join('>');
    }
    line.flag(function.is_unsafe, "unsafe");
    write_abi(&function.abi, line);
    line.flag(function.is_varargs, "varargs");
    for (name, ty) in &function.params {
        line.begin();
        if let Some(name) = name {
            line.join_name(name);
            line.join(':');
        }
        line.join_id(*ty);
    }
}

impl Notation for TypeRef {
    fn write(&self, line: &mut Line) {
        match self {
            TypeRef::Never => line.keyword("never"),
            TypeRef::Placeholder => line.keyword("placeholder"),
            TypeRef::Error => line.keyword("error"),
            TypeRef::Tuple(types) => {
                line.keyword("tuple");
                line.ids(types);
            }
            TypeRef::Path(path) => {
                line.keyword("path");
                path.write(line);
            }
            TypeRef::RawPtr(ty, mutability) => {
                line.keyword("raw");
                line.id(*ty);
                line.flag(mutability.is_mut(), "mut");
            }
            TypeRef::Reference(reference) => {
                line.keyword("ref");
                line.id(reference.ty);
                line.opt_id(reference.lifetime);
                line.flag(reference.mutability.is_mut(), "mut");
            }
            TypeRef::Array(array) => {
                line.keyword("array");
                line.id(array.ty);
                line.id(array.len.expr);
            }
            TypeRef::Slice(ty) => {
                line.keyword("slice");
                line.id(*ty);
            }
            TypeRef::Fn(function) => {
                line.keyword("fn");
                write_fn(function, line);
            }
            TypeRef::ImplTrait(bounds) => {
                line.keyword("impl");
                write_bounds(bounds, line);
            }
            TypeRef::DynTrait(bounds) => {
                line.keyword("dyn");
                write_bounds(bounds, line);
            }
            TypeRef::TypeParam(param) => {
                line.keyword("param");
                param.write(line);
            }
            TypeRef::PatternType(ty, pat) => {
                line.keyword("pattern");
                line.id(*ty);
                line.id(*pat);
            }
        }
    }

    fn read(words: &mut Words<'_>) -> Option<TypeRef> {
        Some(match words.next_keyword()? {
            "never" => TypeRef::Never,
            "placeholder" => TypeRef::Placeholder,
            "error" => TypeRef::Error,
            "tuple" => TypeRef::Tuple(words.next_ids()?),
            "path" => TypeRef::Path(Notation::read(words)?),
            "raw" => TypeRef::RawPtr(words.next_id()?, read_mut(words)),
            "ref" => TypeRef::Reference(Box::new(RefType {
                ty: words.next_id()?,
                lifetime: words.next_opt_id()?,
                mutability: read_mut(words),
            })),
            "array" => TypeRef::Array(ArrayType {
                ty: words.next_id()?,
                len: ConstRef {
                    expr: words.next_id()?,
                },
            }),
            "slice" => TypeRef::Slice(words.next_id()?),
            "fn" => TypeRef::Fn(Box::new(read_fn(words)?)),
            "impl" => TypeRef::ImplTrait(read_bounds(words)?),
            "dyn" => TypeRef::DynTrait(read_bounds(words)?),
            "param" => TypeRef::TypeParam(Notation::read(words)?),
            "pattern" => TypeRef::PatternType(words.next_id()?, words.next_id()?),
            _ => return None,
        })
    }
}
