//! Paths, generic arguments and bounds, each as one word.

use super::{Line, Notation, Words};
use crate::hir::{
    AssociatedTypeBinding, ConstRef, GenericArg, GenericArgs, GenericArgsParentheses, ModPath,
    NormalPath, Path, PathId, PathKind, TraitBoundModifier, TypeBound, UseArgRef,
};
use crate::ids::Id;
use crate::name::Name;

/// How deep arguments may stand in the bindings of others.
const DEEPEST: u8 = 100;

/// Whether a bare word is the kind of a path, and so no name of a segment.
fn is_kind(word: &str) -> bool {
    matches!(word, "self" | "super" | "crate")
}

/// The letter of a name that reads like the number of a type, a lifetime or a constant.
fn letter_of(name: &str) -> Option<u8> {
    let (letter, digits) = name.as_bytes().split_first()?;
    let is_number = !digits.is_empty() && digits.iter().all(u8::is_ascii_digit);
    (matches!(letter, b'T' | b'L' | b'C') && is_number).then_some(*letter)
}

/// A name, in quotes too where it reads like something else in its place.
fn join_name(name: &Name, is_taken: bool, line: &mut Line) {
    if is_taken {
        line.join_quoted(name.as_str());
    } else {
        line.join_name(name);
    }
}

/// The number behind a letter.
fn lettered_id<I: Id>(words: &mut Words<'_>, letter: &str) -> Option<I> {
    words.expect(letter)?;
    words.id()
}

impl Notation for GenericArg {
    fn write(&self, line: &mut Line) {
        match self {
            GenericArg::Ty(id) => line.join(format_args!("T{}", id.into_raw())),
            GenericArg::Lifetime(id) => line.join(format_args!("L{}", id.into_raw())),
            GenericArg::Const(constant) => {
                line.join(format_args!("C{}", constant.expr.into_raw()));
            }
        }
    }

    fn read(words: &mut Words<'_>) -> Option<GenericArg> {
        Some(match letter_of(words.ahead_name())? {
            b'T' => GenericArg::Ty(lettered_id(words, "T")?),
            b'L' => GenericArg::Lifetime(lettered_id(words, "L")?),
            _ => GenericArg::Const(ConstRef {
                expr: lettered_id(words, "C")?,
            }),
        })
    }
}

impl Notation for UseArgRef {
    fn write(&self, line: &mut Line) {
        match self {
            UseArgRef::Name(name) => {
                join_name(name, letter_of(name.as_str()) == Some(b'L'), line);
            }
            UseArgRef::Lifetime(id) => GenericArg::Lifetime(*id).write(line),
        }
    }

    fn read(words: &mut Words<'_>) -> Option<UseArgRef> {
        if letter_of(words.ahead_name()) == Some(b'L') {
            return Some(UseArgRef::Lifetime(lettered_id(words, "L")?));
        }
        Some(UseArgRef::Name(words.name()?))
    }
}

fn read_trait(words: &mut Words<'_>) -> Option<PathId> {
    Some(PathId::from_type_ref_unchecked(lettered_id(words, "T")?))
}

fn write_trait(path: PathId, line: &mut Line) {
    GenericArg::Ty(path.type_ref()).write(line);
}

/// The names behind `for<`, to the end `>`.
pub(crate) fn read_binder(words: &mut Words<'_>) -> Option<Vec<Name>> {
    let names = words.joined_or_none(",", Words::name)?;
    words.expect(">")?;
    Some(names)
}

fn read_uses(words: &mut Words<'_>) -> Option<Vec<UseArgRef>> {
    if words.eat(">") {
        return Some(Vec::new());
    }
    let uses = words.joined(",", UseArgRef::read)?;
    words.expect(">")?;
    Some(uses)
}

impl Notation for TypeBound {
    fn write(&self, line: &mut Line) {
        match self {
            TypeBound::Path(path, modifier) => {
                match modifier {
                    TraitBoundModifier::None => {}
                    TraitBoundModifier::Maybe => line.join('?'),
                }
                write_trait(*path, line);
            }
            TypeBound::ForLifetime(names, path) => {
                line.join_str("for<");
                line.join_names(names);
                line.join('>');
                write_trait(*path, line);
            }
            TypeBound::Lifetime(id) => GenericArg::Lifetime(*id).write(line),
            TypeBound::Use(uses) => {
                line.join_str("use<");
                line.joined(",", uses, |line, used| used.write(line));
                line.join('>');
            }
            TypeBound::Error => line.join_str("error"),
        }
    }

    fn read(words: &mut Words<'_>) -> Option<TypeBound> {
        if words.eat("?") {
            return Some(TypeBound::Path(
                read_trait(words)?,
                TraitBoundModifier::Maybe,
            ));
        }
        if words.eat("for<") {
            return Some(TypeBound::ForLifetime(
                read_binder(words)?,
                read_trait(words)?,
            ));
        }
        if words.eat("use<") {
            return Some(TypeBound::Use(read_uses(words)?));
        }
        if words.eat("error") {
            return Some(TypeBound::Error);
        }
        if words.is_at("L") {
            return Some(TypeBound::Lifetime(lettered_id(words, "L")?));
        }
        Some(TypeBound::Path(
            read_trait(words)?,
            TraitBoundModifier::None,
        ))
    }
}

/// Bounds joined by `+`, or `-` for none, as a word.
pub(super) fn write_bounds(bounds: &[TypeBound], line: &mut Line) {
    line.begin();
    line.joined_or_none("+", bounds, |line, bound| bound.write(line));
}

/// The same, read.
pub(super) fn read_bounds(words: &mut Words<'_>) -> Option<Vec<TypeBound>> {
    words.begin()?;
    words.joined_or_none("+", TypeBound::read)
}

fn write_binding(binding: &AssociatedTypeBinding, line: &mut Line) {
    let is_taken = letter_of(binding.name.as_str()).is_some();
    join_name(&binding.name, is_taken, line);
    if let Some(args) = &binding.args {
        args.write(line);
    }
    if !binding.bounds.is_empty() {
        line.join(':');
        line.joined("+", &binding.bounds, |line, bound| bound.write(line));
    }
    if let Some(id) = binding.type_ref {
        line.join(format_args!("=T{}", id.into_raw()));
    }
}

fn read_binding(words: &mut Words<'_>, depth: u8) -> Option<AssociatedTypeBinding> {
    if letter_of(words.ahead_name()).is_some() {
        return None;
    }
    let name = words.name()?;
    let args = if words.eat("::<") {
        Some(read_within(words, depth.checked_sub(1)?)?)
    } else {
        None
    };
    let bounds = if words.eat(":") {
        words.joined_or_none("+", TypeBound::read)?
    } else {
        Vec::new()
    };
    let type_ref = if words.eat("=T") {
        Some(words.id()?)
    } else {
        None
    };
    Some(AssociatedTypeBinding {
        name,
        args,
        type_ref,
        bounds,
    })
}

fn read_parentheses(words: &mut Words<'_>) -> GenericArgsParentheses {
    if words.eat("paren;") {
        GenericArgsParentheses::ParenSugar
    } else if words.eat("rtn;") {
        GenericArgsParentheses::ReturnTypeNotation
    } else {
        GenericArgsParentheses::No
    }
}

/// Types, lifetimes and constants joined by `,`, where any come next.
fn read_args(words: &mut Words<'_>) -> Option<Vec<GenericArg>> {
    let mut args = Vec::new();
    if letter_of(words.ahead_name()).is_none() {
        return Some(args);
    }
    args.push(GenericArg::read(words)?);
    while let Some(arg) = words.attempt(|words| {
        words.expect(",")?;
        GenericArg::read(words)
    }) {
        args.push(arg);
    }
    Some(args)
}

/// What stands behind `::<`, to the end `>`. In it others may be nested as deep as `depth`.
fn read_within(words: &mut Words<'_>, depth: u8) -> Option<GenericArgs> {
    let has_self_type = words.eat("self;");
    let parenthesized = read_parentheses(words);
    let args = read_args(words)?;
    let has_bindings = if args.is_empty() {
        !words.is_at(">")
    } else {
        words.eat(",")
    };
    let bindings = if has_bindings {
        words.joined(",", |words| read_binding(words, depth))?
    } else {
        Vec::new()
    };
    words.expect(">")?;
    Some(GenericArgs {
        args,
        has_self_type,
        bindings,
        parenthesized,
    })
}

/// From `::<` on.
impl Notation for GenericArgs {
    fn write(&self, line: &mut Line) {
        line.join_str("::<");
        if self.has_self_type {
            line.join_str("self;");
        }
        line.join(match self.parenthesized {
            GenericArgsParentheses::No => "",
            GenericArgsParentheses::ReturnTypeNotation => "rtn;",
            GenericArgsParentheses::ParenSugar => "paren;",
        });
        line.joined(",", &self.args, |line, arg| arg.write(line));
        if !self.args.is_empty() && !self.bindings.is_empty() {
            line.join(',');
        }
        line.joined(",", &self.bindings, |line, binding| {
            write_binding(binding, line);
        });
        line.join('>');
    }

    fn read(words: &mut Words<'_>) -> Option<GenericArgs> {
        words.expect("::<")?;
        read_within(words, DEEPEST)
    }
}

fn write_kind(kind: PathKind, has_names: bool, line: &mut Line) {
    match kind {
        PathKind::Plain => return line.join(if has_names { "" } else { "-" }),
        PathKind::Abs => return line.join_str("::"),
        PathKind::Super(0) => line.join_str("self"),
        PathKind::Super(1) => line.join_str("super"),
        PathKind::Super(count) => line.join(format_args!("super({count})")),
        PathKind::Crate => line.join_str("crate"),
        PathKind::DollarCrate(id) => line.join(format_args!("$crate({})", id.into_raw())),
    }
    line.join(if has_names { "::" } else { "" });
}

fn read_super(words: &mut Words<'_>) -> Option<u8> {
    if !words.eat("(") {
        return Some(1);
    }
    let count = u8::try_from(words.number()?).ok()?;
    words.expect(")")?;
    Some(count)
}

/// The kind of a path, and whether a segment comes next.
fn read_kind(words: &mut Words<'_>) -> Option<(PathKind, bool)> {
    if words.eat("::") {
        return Some((PathKind::Abs, words.is_at_name()));
    }
    if words.eat("-") {
        return Some((PathKind::Plain, false));
    }
    let kind = if words.eat("$crate(") {
        let id = words.id()?;
        words.expect(")")?;
        PathKind::DollarCrate(id)
    } else {
        match words.ahead_name() {
            "self" => {
                words.bare_name();
                PathKind::SELF
            }
            "super" => {
                words.bare_name();
                PathKind::Super(read_super(words)?)
            }
            "crate" => {
                words.bare_name();
                PathKind::Crate
            }
            _ => return Some((PathKind::Plain, true)),
        }
    };
    Some((kind, words.eat("::")))
}

fn read_segment(words: &mut Words<'_>) -> Option<Name> {
    if is_kind(words.ahead_name()) {
        return None;
    }
    words.name()
}

fn write_segment(name: &Name, line: &mut Line) {
    join_name(name, is_kind(name.as_str()), line);
}

/// A path of names, after the last word without a space.
pub(crate) fn join_mod_path(path: &ModPath, line: &mut Line) {
    write_kind(path.kind, !path.segments.is_empty(), line);
    line.joined("::", &path.segments, |line, name| write_segment(name, line));
}

impl Notation for ModPath {
    fn write(&self, line: &mut Line) {
        line.begin();
        join_mod_path(self, line);
    }

    fn read(words: &mut Words<'_>) -> Option<ModPath> {
        words.begin()?;
        let (kind, has_names) = read_kind(words)?;
        let segments = if has_names {
            words.joined("::", read_segment)?
        } else {
            Vec::new()
        };
        Some(ModPath { kind, segments })
    }
}

/// A segment with its arguments, where it has any.
fn read_full_segment(words: &mut Words<'_>) -> Option<(Name, Option<GenericArgs>)> {
    let name = read_segment(words)?;
    let args = if words.is_at("::<") {
        Some(GenericArgs::read(words)?)
    } else {
        None
    };
    Some((name, args))
}

/// The places of a path, as many as stand behind `/`: no arguments may be lost.
fn read_places(
    words: &mut Words<'_>,
    mut places: Vec<Option<GenericArgs>>,
) -> Option<Vec<Option<GenericArgs>>> {
    if !words.eat("/") {
        return Some(places);
    }
    let count = usize::from(u8::try_from(words.number()?).ok()?);
    if places.iter().skip(count).any(Option::is_some) {
        return None;
    }
    places.resize(count, None);
    Some(places)
}

fn write_normal(path: &NormalPath, line: &mut Line) {
    let names = &path.mod_path.segments;
    let has_names = !names.is_empty();
    let kind = path.mod_path.kind;
    let mut has_start = true;
    match path.type_anchor {
        Some(anchor) => {
            line.join(format_args!("<{}>", anchor.into_raw()));
            has_start = has_names || kind != PathKind::Plain;
            line.join(if has_start { "::" } else { "" });
        }
        None if path.generic_args.iter().all(Option::is_none) => line.join('~'),
        None => {}
    }
    if has_start {
        write_kind(kind, has_names, line);
    }
    for (at, name) in names.iter().enumerate() {
        if at > 0 {
            line.join_str("::");
        }
        write_segment(name, line);
        if let Some(Some(args)) = path.generic_args.get(at) {
            args.write(line);
        }
    }
    if path.generic_args.len() != names.len() {
        line.join(format_args!("/{}", path.generic_args.len()));
    }
}

fn read_lang(words: &mut Words<'_>) -> Option<Path> {
    let target = Notation::read(words)?;
    words.expect(")")?;
    let name = if words.eat("::") {
        Some(read_segment(words)?)
    } else {
        None
    };
    Some(Path::LangItem(target, name))
}

fn read_anchor(words: &mut Words<'_>) -> Option<Option<crate::ids::TypeRefId>> {
    if !words.eat("<") {
        return Some(None);
    }
    let anchor = words.id()?;
    words.expect(">")?;
    Some(Some(anchor))
}

impl Notation for Path {
    fn write(&self, line: &mut Line) {
        match self {
            Path::BarePath(path) => path.write(line),
            Path::Normal(path) => {
                line.begin();
                write_normal(path, line);
            }
            Path::LangItem(target, name) => {
                line.keyword("lang(");
                target.write(line);
                line.join(')');
                if let Some(name) = name {
                    line.join_str("::");
                    write_segment(name, line);
                }
            }
        }
    }

    fn read(words: &mut Words<'_>) -> Option<Path> {
        words.begin()?;
        if words.eat("lang(") {
            return read_lang(words);
        }
        let is_normal = words.eat("~");
        let type_anchor = read_anchor(words)?;
        let (kind, has_segments) = if type_anchor.is_some() && !words.eat("::") {
            (PathKind::Plain, false)
        } else {
            read_kind(words)?
        };
        let (segments, places): (Vec<Name>, Vec<_>) = if has_segments {
            words.joined("::", read_full_segment)?.into_iter().unzip()
        } else {
            (Vec::new(), Vec::new())
        };
        let mod_path = ModPath { kind, segments };
        if !is_normal && type_anchor.is_none() && places.iter().all(Option::is_none) {
            return Some(Path::BarePath(mod_path));
        }
        Some(Path::Normal(Box::new(NormalPath {
            generic_args: read_places(words, places)?,
            type_anchor,
            mod_path,
        })))
    }
}
