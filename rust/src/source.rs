//! Where nodes come from: pointers to syntax, the source map of a store, and the diagnostics of lowering.

use crate::hir::ModPath;
use crate::ids::{
    BindingId, ExprId, HirFileId, LabelId, LifetimeRefId, MacroCallId, PatId, TypeRefId,
};
use crate::name::Name;
use crate::notation::{Line, Notation, Words};
use crate::store::ExprOrPatId;
use std::collections::BTreeMap;

/// A part of a file, in bytes from the file's start: from `start` up to, but not including, `end`.
#[derive(Clone, Copy, PartialEq, Eq, PartialOrd, Ord, Hash, Debug)]
#[cfg_attr(hir_serde, derive(serde::Serialize, serde::Deserialize))]
pub struct TextRange {
    /// The first byte.
    pub start: u32,
    /// The byte after the last.
    pub end: u32,
}

/// A syntax node, named by its kind and its range.
#[derive(Clone, Copy, PartialEq, Eq, PartialOrd, Ord, Hash, Debug)]
#[cfg_attr(hir_serde, derive(serde::Serialize, serde::Deserialize))]
pub struct SyntaxNodePtr {
    /// The number of the node's syntax kind, as the parser gives it.
    pub kind: u16,
    /// The text of the node.
    pub range: TextRange,
}

/// A value, and the file that it is in.
#[derive(Clone, Copy, PartialEq, Eq, PartialOrd, Ord, Hash, Debug)]
#[cfg_attr(hir_serde, derive(serde::Serialize, serde::Deserialize))]
pub struct InFile<T> {
    /// The file.
    pub file_id: HirFileId,
    /// The value.
    pub value: T,
}

/// A syntax node in a file: what the entries of a source map name.
///
/// ```
/// use hir_expr_store::{ExpressionStoreBuilder, HirFileId, Source, TextRange, make};
///
/// # fn main() -> Result<(), hir_expr_store::HirError> {
/// let mut builder = ExpressionStoreBuilder::new();
/// let x = make::local(&mut builder, "x");
/// builder.push_root(x);
/// let source = Source::new(HirFileId::from_raw(0), 7, TextRange { start: 3, end: 4 });
/// builder.map_expr(source, x);
/// builder.map_expr_back(x, source);
/// let store = builder.finish()?;
/// assert_eq!(store.node_expr(source)?, Some(x.into()));
/// assert_eq!(store.expr_syntax(x)?, Some(source));
/// # Ok(())
/// # }
/// ```
pub type Source = InFile<SyntaxNodePtr>;

impl Source {
    /// The node of this kind and range in a file.
    pub const fn new(file_id: HirFileId, kind: u16, range: TextRange) -> Source {
        InFile {
            file_id,
            value: SyntaxNodePtr { kind, range },
        }
    }
}

/// `FILE:KIND:START-END`
impl Notation for Source {
    fn write(&self, line: &mut Line) {
        let SyntaxNodePtr { kind, range } = self.value;
        line.begin();
        line.join_id(self.file_id);
        line.join(format_args!(":{kind}:{}-{}", range.start, range.end));
    }

    fn read(words: &mut Words<'_>) -> Option<Source> {
        words.begin()?;
        let file_id = words.id()?;
        words.expect(":")?;
        let kind = u16::try_from(words.number()?).ok()?;
        words.expect(":")?;
        let start = words.number()?;
        words.expect("-")?;
        let end = words.number()?;
        Some(Source::new(file_id, kind, TextRange { start, end }))
    }
}

/// `expr:E` or `pat:P`
impl Notation for ExprOrPatId {
    fn write(&self, line: &mut Line) {
        match self {
            ExprOrPatId::ExprId(id) => line.word(format_args!("expr:{}", id.into_raw())),
            ExprOrPatId::PatId(id) => line.word(format_args!("pat:{}", id.into_raw())),
        }
    }

    fn read(words: &mut Words<'_>) -> Option<ExprOrPatId> {
        words.begin()?;
        if words.eat("expr:") {
            return Some(ExprOrPatId::ExprId(words.id()?));
        }
        words.expect("pat:")?;
        Some(ExprOrPatId::PatId(words.id()?))
    }
}

/// The kind of an item that has to have a body or a value.
#[derive(Clone, Copy, PartialEq, Eq, Hash, Debug)]
#[cfg_attr(hir_serde, derive(serde::Serialize, serde::Deserialize))]
pub enum MissingBodyItemKind {
    /// A constant of a trait or an `impl`.
    AssocConst,
    /// A type of a trait or an `impl`.
    AssocType,
    /// A constant.
    Const,
    /// A static.
    Static,
    /// A type alias.
    TypeAlias,
}

/// What lowering found wrong, with the node that it is about.
#[derive(Clone, PartialEq, Eq, Debug)]
#[cfg_attr(hir_serde, derive(serde::Serialize, serde::Deserialize))]
pub enum ExpressionStoreDiagnostics {
    /// Code that a `cfg` leaves out.
    InactiveCode {
        /// The code.
        node: Source,
        /// The condition.
        cfg: String,
        /// What it was tested against.
        opts: String,
    },
    /// A call of a macro that isn't found.
    UnresolvedMacroCall {
        /// The call.
        node: Source,
        /// The path of the macro.
        path: ModPath,
    },
    /// A label outside of the function, the closure or the constant that names it.
    UnreachableLabel {
        /// Where it is named.
        node: Source,
        /// The label.
        name: Name,
    },
    /// An `.await` where nothing is asynchronous.
    AwaitOutsideOfAsync {
        /// The `.await`.
        node: Source,
        /// What it is in instead.
        location: String,
    },
    /// A label that no enclosing loop or block has.
    UndeclaredLabel {
        /// Where it is named.
        node: Source,
        /// The label.
        name: Name,
    },
    /// A parameter of a foreign function that is a pattern.
    PatternArgInExternFn {
        /// The pattern.
        node: Source,
    },
    /// A struct expression with a base, on the left of an assignment.
    FruInDestructuringAssignment {
        /// The expression.
        node: Source,
    },
    /// An item without the body or the value that it has to have.
    MissingBody {
        /// The item.
        node: Source,
        /// What kind of item it is.
        kind: MissingBodyItemKind,
    },
}

fn write_kind(kind: &str, node: Source, line: &mut Line) {
    line.word(kind);
    node.write(line);
}

/// As after `diagnostic`.
impl Notation for ExpressionStoreDiagnostics {
    fn write(&self, line: &mut Line) {
        match self {
            ExpressionStoreDiagnostics::InactiveCode { node, cfg, opts } => {
                write_kind("InactiveCode", *node, line);
                line.quoted(cfg);
                line.quoted(opts);
            }
            ExpressionStoreDiagnostics::UnresolvedMacroCall { node, path } => {
                write_kind("UnresolvedMacroCall", *node, line);
                path.write(line);
            }
            ExpressionStoreDiagnostics::UnreachableLabel { node, name } => {
                write_kind("UnreachableLabel", *node, line);
                line.name(name);
            }
            ExpressionStoreDiagnostics::AwaitOutsideOfAsync { node, location } => {
                write_kind("AwaitOutsideOfAsync", *node, line);
                line.quoted(location);
            }
            ExpressionStoreDiagnostics::UndeclaredLabel { node, name } => {
                write_kind("UndeclaredLabel", *node, line);
                line.name(name);
            }
            ExpressionStoreDiagnostics::PatternArgInExternFn { node } => {
                write_kind("PatternArgInExternFn", *node, line);
            }
            ExpressionStoreDiagnostics::FruInDestructuringAssignment { node } => {
                write_kind("FruInDestructuringAssignment", *node, line);
            }
            ExpressionStoreDiagnostics::MissingBody { node, kind } => {
                write_kind("MissingBody", *node, line);
                line.word(match kind {
                    MissingBodyItemKind::AssocConst => "AssocConst",
                    MissingBodyItemKind::AssocType => "AssocType",
                    MissingBodyItemKind::Const => "Const",
                    MissingBodyItemKind::Static => "Static",
                    MissingBodyItemKind::TypeAlias => "TypeAlias",
                });
            }
        }
    }

    fn read(words: &mut Words<'_>) -> Option<ExpressionStoreDiagnostics> {
        let kind = words.next_keyword()?;
        let node = Source::read(words)?;
        Some(match kind {
            "InactiveCode" => ExpressionStoreDiagnostics::InactiveCode {
                node,
                cfg: words.next_quoted()?,
                opts: words.next_quoted()?,
            },
            "UnresolvedMacroCall" => ExpressionStoreDiagnostics::UnresolvedMacroCall {
                node,
                path: Notation::read(words)?,
            },
            "UnreachableLabel" => ExpressionStoreDiagnostics::UnreachableLabel {
                node,
                name: words.next_name()?,
            },
            "AwaitOutsideOfAsync" => ExpressionStoreDiagnostics::AwaitOutsideOfAsync {
                node,
                location: words.next_quoted()?,
            },
            "UndeclaredLabel" => ExpressionStoreDiagnostics::UndeclaredLabel {
                node,
                name: words.next_name()?,
            },
            "PatternArgInExternFn" => ExpressionStoreDiagnostics::PatternArgInExternFn { node },
            "FruInDestructuringAssignment" => {
                ExpressionStoreDiagnostics::FruInDestructuringAssignment { node }
            }
            "MissingBody" => ExpressionStoreDiagnostics::MissingBody {
                node,
                kind: match words.next_keyword()? {
                    "AssocConst" => MissingBodyItemKind::AssocConst,
                    "AssocType" => MissingBodyItemKind::AssocType,
                    "Const" => MissingBodyItemKind::Const,
                    "Static" => MissingBodyItemKind::Static,
                    "TypeAlias" => MissingBodyItemKind::TypeAlias,
                    _ => return None,
                },
            },
            _ => return None,
        })
    }
}

/// The entries of a source map, as they were made: of entries for one key the last.
#[derive(Clone, PartialEq, Eq, Debug, Default)]
#[cfg_attr(hir_serde, derive(serde::Serialize, serde::Deserialize))]
#[cfg_attr(hir_serde, serde(default, deny_unknown_fields))]
pub(crate) struct Sources {
    #[cfg_attr(hir_serde, serde(with = "crate::serde::pairs"))]
    pub exprs: BTreeMap<Source, ExprOrPatId>,
    #[cfg_attr(hir_serde, serde(with = "crate::serde::pairs"))]
    pub exprs_back: BTreeMap<ExprId, Source>,
    #[cfg_attr(hir_serde, serde(with = "crate::serde::pairs"))]
    pub pats: BTreeMap<Source, ExprOrPatId>,
    #[cfg_attr(hir_serde, serde(with = "crate::serde::pairs"))]
    pub pats_back: BTreeMap<PatId, Source>,
    #[cfg_attr(hir_serde, serde(with = "crate::serde::pairs"))]
    pub labels: BTreeMap<Source, LabelId>,
    #[cfg_attr(hir_serde, serde(with = "crate::serde::pairs"))]
    pub labels_back: BTreeMap<LabelId, Source>,
    #[cfg_attr(hir_serde, serde(with = "crate::serde::pairs"))]
    pub types: BTreeMap<Source, TypeRefId>,
    #[cfg_attr(hir_serde, serde(with = "crate::serde::pairs"))]
    pub types_back: BTreeMap<TypeRefId, Source>,
    #[cfg_attr(hir_serde, serde(with = "crate::serde::pairs"))]
    pub lifetimes: BTreeMap<Source, LifetimeRefId>,
    #[cfg_attr(hir_serde, serde(with = "crate::serde::pairs"))]
    pub lifetimes_back: BTreeMap<LifetimeRefId, Source>,
    #[cfg_attr(hir_serde, serde(with = "crate::serde::pairs"))]
    pub fields_back: BTreeMap<ExprId, Source>,
    #[cfg_attr(hir_serde, serde(with = "crate::serde::pairs"))]
    pub pat_fields_back: BTreeMap<PatId, Source>,
    /// In the order in which they were added.
    pub definitions: Vec<(BindingId, PatId)>,
    #[cfg_attr(hir_serde, serde(with = "crate::serde::pairs"))]
    pub expansions: BTreeMap<Source, MacroCallId>,
    /// In the order in which they were added.
    pub diagnostics: Vec<ExpressionStoreDiagnostics>,
}

/// A line for each entry, the source first.
fn write_map<T>(
    word: &str,
    map: &BTreeMap<Source, T>,
    line: &mut Line,
    write: impl Fn(&T, &mut Line),
) {
    for (source, node) in map {
        line.word(word);
        source.write(line);
        write(node, line);
        line.next_line();
    }
}

/// A line for each entry, the node first.
fn write_back<I: crate::ids::Id>(word: &str, map: &BTreeMap<I, Source>, line: &mut Line) {
    for (node, source) in map {
        line.word(word);
        line.id(*node);
        source.write(line);
        line.next_line();
    }
}

impl Sources {
    /// Writes the lines that make the entries.
    pub(crate) fn write(&self, line: &mut Line) {
        write_map("map-expr", &self.exprs, line, Notation::write);
        write_back("map-expr-back", &self.exprs_back, line);
        write_map("map-pat", &self.pats, line, Notation::write);
        write_back("map-pat-back", &self.pats_back, line);
        write_map("map-label", &self.labels, line, |id, line| line.id(*id));
        write_back("map-label-back", &self.labels_back, line);
        write_map("map-type", &self.types, line, |id, line| line.id(*id));
        write_back("map-type-back", &self.types_back, line);
        write_map("map-lifetime", &self.lifetimes, line, |id, line| {
            line.id(*id);
        });
        write_back("map-lifetime-back", &self.lifetimes_back, line);
        write_back("map-field-back", &self.fields_back, line);
        write_back("map-pat-field-back", &self.pat_fields_back, line);
        for (binding, pat) in &self.definitions {
            line.keyword("definition");
            line.id(*binding);
            line.id(*pat);
            line.next_line();
        }
        write_map("expansion", &self.expansions, line, |id, line| line.id(*id));
        for diagnostic in &self.diagnostics {
            line.keyword("diagnostic");
            diagnostic.write(line);
            line.next_line();
        }
    }
}
