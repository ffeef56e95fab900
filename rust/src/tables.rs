//! What is known of definitions: names, layouts, signatures and fields, which printed texts have.

use crate::def::{GenericDefId, LangItemTarget, NamedDef, VariantId};
use crate::fault::Missing;
use crate::fields::VariantFields;
use crate::hir::{Expr, LifetimeRef, ModPath, Pat, Path, PathKind, TypeRef};
use crate::ids::{CrateId, EnumId, EnumVariantId, StructId};
use crate::name::Name;
use crate::nodes::Nodes;
use crate::notation::{Line, Notation};
use crate::signature::{Signature, SignatureData};
use std::collections::{BTreeSet, HashMap};
use std::sync::atomic::{AtomicU64, Ordering};
use std::sync::Arc;

/// An edition of the language.
#[derive(Clone, Copy, PartialEq, Eq, PartialOrd, Ord, Hash, Debug)]
#[cfg_attr(hir_serde, derive(serde::Serialize, serde::Deserialize))]
pub enum Edition {
    /// 2015
    Edition2015,
    /// 2018
    Edition2018,
    /// 2021
    Edition2021,
    /// 2024
    Edition2024,
}

impl Edition {
    /// Its number.
    pub const fn as_str(self) -> &'static str {
        match self {
            Edition::Edition2015 => "2015",
            Edition::Edition2018 => "2018",
            Edition::Edition2021 => "2021",
            Edition::Edition2024 => "2024",
        }
    }
}

/// The layout of a struct, as `#[repr(..)]` says it.
#[derive(Clone, Copy, PartialEq, Eq, Hash, Debug, Default)]
#[cfg_attr(hir_serde, derive(serde::Serialize, serde::Deserialize))]
pub struct Repr {
    /// Whether it is that of C.
    pub c: bool,
    /// The least alignment, in bytes.
    pub align: Option<u64>,
    /// The greatest alignment of a field, in bytes.
    pub pack: Option<u64>,
}

/// What an entry of tables is of.
#[derive(Clone, Copy, PartialEq, Eq, PartialOrd, Ord, Hash, Debug)]
pub(crate) enum Key {
    RawWords(Edition),
    Name(NamedDef),
    Crate(CrateId),
    Parent(EnumVariantId),
    Repr(StructId),
    Signature(GenericDefId),
    Fields(VariantId),
}

impl Key {
    /// Those of raw words.
    pub(crate) const RAW_WORDS: [Key; 4] = [
        Key::RawWords(Edition::Edition2015),
        Key::RawWords(Edition::Edition2018),
        Key::RawWords(Edition::Edition2021),
        Key::RawWords(Edition::Edition2024),
    ];

    /// Whether the entry has a store.
    pub(crate) fn has_store(self) -> bool {
        match self {
            Key::Signature(_) | Key::Fields(_) => true,
            Key::RawWords(_) | Key::Name(_) | Key::Crate(_) | Key::Parent(_) | Key::Repr(_) => {
                false
            }
        }
    }

    /// The entry without which this is missing.
    pub(crate) fn of_missing(missing: Missing) -> Option<Key> {
        match missing {
            Missing::Name(def) => Some(Key::Name(def)),
            Missing::Variant(id) => Some(Key::Parent(id)),
            Missing::Crate(id) => Some(Key::Crate(id)),
            Missing::Signature(def) => Some(Key::Signature(def)),
            Missing::Fields(def) => Some(Key::Fields(def)),
            Missing::Body(_)
            | Missing::TypeParam(_)
            | Missing::LifetimeParam(_)
            | Missing::DefMap(_) => None,
        }
    }
}

#[derive(Clone, Debug)]
enum Entry {
    RawWords(Vec<Name>),
    Name(Option<Name>),
    Parent(EnumId),
    Repr(Repr),
    /// The lines that make a signature or the fields of a variant, of which the last has an answer.
    Lines(Arc<str>),
}

/// What is known of definitions. A later entry of a definition takes the place of an earlier one.
///
/// ```
/// use hir_expr_store::{Edition, ExpressionStoreBuilder, FunctionId, Tables, make};
///
/// # fn main() -> Result<(), hir_expr_store::HirError> {
/// let mut builder = ExpressionStoreBuilder::new();
/// let root = make::int(&mut builder, 1);
/// let f = FunctionId::from_raw(0);
/// let body = make::body(f, builder, &[], root)?;
/// let mut tables = Tables::new();
/// assert_eq!(body.print(&tables, Edition::Edition2021).unwrap_err().to_string(), "no name of FunctionId(0)");
/// tables.add_name(f, Some(&"one".into()));
/// assert_eq!(body.print(&tables, Edition::Edition2021)?, "fn one() 1");
/// # Ok(())
/// # }
/// ```
#[derive(Debug)]
pub struct Tables {
    /// Which tables these are: no two have the same number.
    id: u64,
    /// How many entries were made.
    stamp: u64,
    /// Each entry with the stamp that it got.
    entries: HashMap<Key, (u64, Entry)>,
}

fn next_id() -> u64 {
    static NEXT: AtomicU64 = AtomicU64::new(0);
    NEXT.fetch_add(1, Ordering::Relaxed)
}

/// A copy is other tables: what is added to it isn't in those that it was made of.
impl Clone for Tables {
    fn clone(&self) -> Tables {
        Tables {
            id: next_id(),
            stamp: self.stamp,
            entries: self.entries.clone(),
        }
    }
}

impl Default for Tables {
    fn default() -> Tables {
        Tables::new()
    }
}

/// The definition whose name a lang item is printed by.
fn name_of(target: LangItemTarget) -> Option<NamedDef> {
    match target {
        LangItemTarget::ImplId(_) => None,
        LangItemTarget::EnumId(id) => Some(id.into()),
        LangItemTarget::FunctionId(id) => Some(id.into()),
        LangItemTarget::StaticId(id) => Some(id.into()),
        LangItemTarget::StructId(id) => Some(id.into()),
        LangItemTarget::UnionId(id) => Some(id.into()),
        LangItemTarget::TypeAliasId(id) => Some(id.into()),
        LangItemTarget::TraitId(id) => Some(id.into()),
        LangItemTarget::EnumVariantId(id) => Some(id.into()),
        LangItemTarget::ConstId(id) => Some(id.into()),
        LangItemTarget::MacroId(id) => Some(id.into()),
    }
}

fn path_of_expr(expr: &Expr) -> Option<&Path> {
    match expr {
        Expr::Path(path) | Expr::RecordLit { path, .. } => Some(path),
        _ => None,
    }
}

fn path_of_pat(pat: &Pat) -> Option<&Path> {
    match pat {
        Pat::Path(path) | Pat::Record { path, .. } | Pat::TupleStruct { path, .. } => Some(path),
        _ => None,
    }
}

fn keys_of_mod_path(path: &ModPath, keys: &mut BTreeSet<Key>) {
    if let PathKind::DollarCrate(id) = path.kind {
        keys.insert(Key::Crate(id));
    }
}

impl Tables {
    /// Empty tables.
    pub fn new() -> Tables {
        Tables {
            id: next_id(),
            stamp: 0,
            entries: HashMap::new(),
        }
    }

    fn add(&mut self, key: Key, entry: Entry) {
        self.stamp += 1;
        self.entries.insert(key, (self.stamp, entry));
    }

    /// The name of a definition; `None` for one that has none.
    pub fn add_name(&mut self, def: impl Into<NamedDef>, name: Option<&Name>) {
        self.add(Key::Name(def.into()), Entry::Name(name.cloned()));
    }

    /// What a crate is called.
    pub fn add_crate_name(&mut self, id: CrateId, name: Option<&Name>) {
        self.add(Key::Crate(id), Entry::Name(name.cloned()));
    }

    /// The enum of a variant.
    pub fn add_variant_parent(&mut self, variant: EnumVariantId, parent: EnumId) {
        self.add(Key::Parent(variant), Entry::Parent(parent));
    }

    /// The layout of a struct.
    pub fn add_repr(&mut self, id: StructId, repr: Repr) {
        self.add(Key::Repr(id), Entry::Repr(repr));
    }

    /// The words of an edition that a name is written with `r#` for.
    pub fn set_raw_words(&mut self, edition: Edition, words: Vec<Name>) {
        self.add(Key::RawWords(edition), Entry::RawWords(words));
    }

    /// The signature of its definition.
    pub fn add_signature<D: SignatureData>(&mut self, signature: &Signature<D>) {
        self.add(
            Key::Signature(signature.def()),
            Entry::Lines(signature.lines().into()),
        );
    }

    /// The fields of their struct, union or variant.
    pub fn add_fields(&mut self, fields: &VariantFields) {
        self.add(
            Key::Fields(fields.variant()),
            Entry::Lines(fields.lines().into()),
        );
    }

    fn entry(&self, key: Key) -> Option<&Entry> {
        self.entries.get(&key).map(|(_, entry)| entry)
    }

    /// The name of a definition: the inner `None` where it has none, the outer where the tables lack it.
    pub fn name(&self, def: impl Into<NamedDef>) -> Option<Option<&Name>> {
        match self.entry(Key::Name(def.into())) {
            Some(Entry::Name(name)) => Some(name.as_ref()),
            _ => None,
        }
    }

    /// What a crate is called: the inner `None` where it has no name, the outer where the tables lack it.
    pub fn crate_name(&self, id: CrateId) -> Option<Option<&Name>> {
        match self.entry(Key::Crate(id)) {
            Some(Entry::Name(name)) => Some(name.as_ref()),
            _ => None,
        }
    }

    /// The enum of a variant.
    pub fn variant_parent(&self, variant: EnumVariantId) -> Option<EnumId> {
        match self.entry(Key::Parent(variant)) {
            Some(Entry::Parent(parent)) => Some(*parent),
            _ => None,
        }
    }

    /// The layout of a struct, where one was added.
    pub fn repr(&self, id: StructId) -> Option<Repr> {
        match self.entry(Key::Repr(id)) {
            Some(Entry::Repr(repr)) => Some(*repr),
            _ => None,
        }
    }

    /// The words of an edition that a name is written with `r#` for.
    pub fn raw_words(&self, edition: Edition) -> &[Name] {
        match self.entry(Key::RawWords(edition)) {
            Some(Entry::RawWords(words)) => words,
            _ => &[],
        }
    }

    pub(crate) const fn id(&self) -> u64 {
        self.id
    }

    pub(crate) const fn stamp(&self) -> u64 {
        self.stamp
    }

    /// The stamp of an entry, where there is one.
    pub(crate) fn stamp_of(&self, key: Key) -> Option<u64> {
        self.entries.get(&key).map(|(stamp, _)| *stamp)
    }

    /// What the nodes look up in these tables when they are printed, as far as a glance tells.
    pub(crate) fn named_by(&self, nodes: &Nodes) -> BTreeSet<Key> {
        let mut keys = BTreeSet::new();
        let exprs = nodes.exprs.values().filter_map(path_of_expr);
        let pats = nodes.pats.values().filter_map(path_of_pat);
        let types = nodes.types.values().filter_map(|ty| match ty {
            TypeRef::Path(named) => Some(named),
            _ => None,
        });
        for named in exprs.chain(pats).chain(types) {
            match named {
                Path::BarePath(plain) => keys_of_mod_path(plain, &mut keys),
                Path::Normal(normal) => keys_of_mod_path(&normal.mod_path, &mut keys),
                Path::LangItem(target, _) => keys.extend(name_of(*target).map(Key::Name)),
            }
        }
        keys.extend(nodes.types.values().filter_map(|ty| match ty {
            TypeRef::TypeParam(param) => Some(Key::Signature(param.0.parent)),
            _ => None,
        }));
        keys.extend(
            nodes
                .lifetimes
                .values()
                .filter_map(|lifetime| match lifetime {
                    LifetimeRef::Param(param) => Some(Key::Signature(param.parent)),
                    _ => None,
                }),
        );
        keys.retain(|key| self.entries.contains_key(key));
        keys
    }

    /// Writes the lines that make an entry, and says how many answers they have.
    pub(crate) fn write(&self, key: Key, line: &mut Line) -> usize {
        let Some(entry) = self.entry(key) else {
            return 0;
        };
        match key {
            Key::RawWords(edition) => {
                line.keyword("raw-words");
                line.word(edition.as_str());
            }
            Key::Name(def) => {
                line.keyword("name ");
                def.write(line);
            }
            Key::Crate(id) => {
                line.keyword("crate-name");
                line.id(id);
            }
            Key::Parent(id) => {
                line.keyword("parent");
                line.id(id);
            }
            Key::Repr(id) => {
                line.keyword("repr");
                line.id(id);
            }
            Key::Signature(_) | Key::Fields(_) => {}
        }
        match entry {
            Entry::RawWords(words) => {
                line.begin();
                line.join_names(words);
            }
            Entry::Name(Some(name)) => line.name(name),
            Entry::Name(None) => line.word('-'),
            Entry::Parent(parent) => line.id(*parent),
            Entry::Repr(repr) => {
                line.flag(repr.c, "C");
                if let Some(align) = repr.align {
                    line.word(format_args!("align:{align}"));
                }
                if let Some(pack) = repr.pack {
                    line.word(format_args!("pack:{pack}"));
                }
            }
            Entry::Lines(lines) => {
                line.lines(lines);
                return 1;
            }
        }
        line.next_line();
        0
    }
}
