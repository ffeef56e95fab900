//! Signatures of definitions: a store of types, and what names them.

use crate::def::{GenericDefId, PlainDef};
use crate::error::{HirError, Result};
use crate::fault::SignatureFault;
use crate::fields::FieldsShape;
use crate::generics::{GenericParams, LifetimeParamData, TypeOrConstParamData, WherePredicate};
use crate::hir::ExternAbi;
use crate::ids::{FunctionId, LocalLifetimeParamId, LocalTypeOrConstParamId, StructId, TypeRefId};
use crate::link::Tail;
use crate::name::Name;
use crate::notation::type_ref::write_abi;
use crate::notation::{Line, Notation, Words};
use crate::query::{read_lines, read_opt, read_opt_id, Query};
use crate::store::ExpressionStore;
use crate::tables::{Edition, Key, Tables};
use std::fmt;
use std::ops::Deref;

/// What the signature of a function has beside its generic parameters.
#[allow(clippy::struct_excessive_bools)] // One for each word before `fn`, as in rust-analyzer's flags.
#[derive(Clone, PartialEq, Eq, Hash, Debug)]
#[cfg_attr(hir_serde, derive(serde::Serialize, serde::Deserialize))]
pub struct FunctionData {
    /// Its name.
    pub name: Name,
    /// The types of the parameters, in their order.
    pub params: Vec<TypeRefId>,
    /// The return type, where one is written.
    pub ret_type: Option<TypeRefId>,
    /// The calling convention.
    pub abi: ExternAbi,
    /// Whether it is `const`.
    pub is_const: bool,
    /// Whether it is `async`.
    pub is_async: bool,
    /// Whether it is `unsafe`.
    pub is_unsafe: bool,
    /// Whether it is `safe`, in an `extern` block.
    pub is_explicit_safe: bool,
    /// The arguments that are given to constant parameters, where the function has such.
    pub legacy_const_indices: Option<Vec<u32>>,
}

impl FunctionData {
    /// A function with this name and these types, and nothing else.
    pub fn new(name: Name, params: Vec<TypeRefId>, ret_type: Option<TypeRefId>) -> FunctionData {
        FunctionData {
            name,
            params,
            ret_type,
            abi: ExternAbi::Rust,
            is_const: false,
            is_async: false,
            is_unsafe: false,
            is_explicit_safe: false,
            legacy_const_indices: None,
        }
    }
}

/// What the signature of a struct has beside its generic parameters.
#[derive(Clone, PartialEq, Eq, Hash, Debug)]
#[cfg_attr(hir_serde, derive(serde::Serialize, serde::Deserialize))]
pub struct StructData {
    /// Its name.
    pub name: Name,
    /// Whether it has the attribute `#[fundamental]`.
    pub is_fundamental: bool,
    /// How its fields are written.
    pub shape: FieldsShape,
}

mod sealed {
    use crate::notation::Line;

    /// What only this package implements.
    pub trait Sealed {
        type Id: Copy;

        /// Writes the last line that makes the signature of this definition.
        fn write(&self, id: Self::Id, line: &mut Line);
    }
}

/// What a signature has beside its generic parameters: of a function, a struct, or nothing.
pub trait SignatureData: sealed::Sealed<Id = <Self as SignatureData>::Def> {
    /// The definition that it is of.
    type Def: Copy + Into<GenericDefId> + fmt::Debug + PartialEq;
}

impl sealed::Sealed for FunctionData {
    type Id = FunctionId;

    fn write(&self, id: FunctionId, line: &mut Line) {
        line.keyword("function");
        line.id(id);
        line.name(&self.name);
        line.ids(&self.params);
        line.opt_id(self.ret_type);
        line.flag(self.is_const, "const");
        line.flag(self.is_async, "async");
        line.flag(self.is_unsafe, "unsafe");
        line.flag(self.is_explicit_safe, "safe");
        write_abi(&self.abi, line);
        if let Some(indices) = &self.legacy_const_indices {
            line.keyword("legacy:");
            line.joined_or_none(",", indices, |line, index| line.join(index));
        }
    }
}

impl SignatureData for FunctionData {
    type Def = FunctionId;
}

impl sealed::Sealed for StructData {
    type Id = StructId;

    fn write(&self, id: StructId, line: &mut Line) {
        line.keyword("struct");
        line.id(id);
        line.name(&self.name);
        line.word(self.shape.as_str());
        line.flag(self.is_fundamental, "fundamental");
    }
}

impl SignatureData for StructData {
    type Def = StructId;
}

impl sealed::Sealed for () {
    type Id = PlainDef;

    fn write(&self, id: PlainDef, line: &mut Line) {
        line.keyword("plain ");
        id.write(line);
    }
}

impl SignatureData for () {
    type Def = PlainDef;
}

/// The signature of a function.
pub type FunctionSignature = Signature<FunctionData>;

/// The signature of a struct.
pub type StructSignature = Signature<StructData>;

/// The signature of any other definition: its generic parameters alone.
pub type PlainSignature = Signature<()>;

/// The signature of a definition: a store of types, generic parameters, and what the definition has beside them.
///
/// ```
/// use hir_expr_store::{Edition, ExpressionStoreBuilder, FunctionData, FunctionId, FunctionSignature, GenericParams, Tables, make};
///
/// # fn main() -> Result<(), hir_expr_store::HirError> {
/// // fn f(u8) -> bool
/// let mut builder = ExpressionStoreBuilder::new();
/// let param = make::path_type(&mut builder, "u8");
/// let ret = make::path_type(&mut builder, "bool");
/// let store = builder.finish()?;
/// let data = FunctionData::new("f".into(), vec![param], Some(ret));
/// let f = FunctionSignature::new(FunctionId::from_raw(0), store, GenericParams::default(), data)?;
/// assert_eq!(f.print(&Tables::new(), Edition::Edition2021)?, "fn f(u8) -> bool {...}\n");
/// # Ok(())
/// # }
/// ```
#[derive(Debug)]
pub struct Signature<D: SignatureData> {
    id: D::Def,
    store: ExpressionStore,
    generic_params: GenericParams,
    data: D,
}

/// The parts of a signature, or of fields, that were refused, and why.
#[derive(Debug)]
pub struct RefusedSignature<P> {
    /// Why they were refused.
    pub error: HirError,
    /// The store.
    pub store: ExpressionStore,
    /// The other parts.
    pub parts: P,
}

impl<P> fmt::Display for RefusedSignature<P> {
    fn fmt(&self, f: &mut fmt::Formatter<'_>) -> fmt::Result {
        fmt::Display::fmt(&self.error, f)
    }
}

impl<P: fmt::Debug> std::error::Error for RefusedSignature<P> {}

/// Why they were refused.
impl<P> From<Box<RefusedSignature<P>>> for HirError {
    fn from(refused: Box<RefusedSignature<P>>) -> HirError {
        refused.error
    }
}

pub(crate) fn fault(text: &str) -> HirError {
    match SignatureFault::from_text(text) {
        Some(fault) => HirError::Signature(fault),
        None => HirError::of_refusal(text),
    }
}

/// How many parameters there are of each kind.
#[derive(Clone, Copy, PartialEq, Eq, Hash, Debug)]
pub struct GenericCounts {
    /// All.
    pub len: usize,
    /// All but the late bound lifetimes.
    pub no_late: usize,
    /// The lifetimes.
    pub lifetimes: usize,
    /// The early bound ones among them.
    pub early: usize,
    /// The late bound ones.
    pub late: usize,
    /// The types and constants.
    pub type_or_consts: usize,
    /// The predicates.
    pub predicates: usize,
}

fn read_counts(text: &str) -> Option<GenericCounts> {
    let mut words = Words::new(text);
    let mut count = |word: &str| {
        (words.next_keyword()? == word).then_some(())?;
        words.begin()?;
        usize::try_from(words.big()?).ok()
    };
    Some(GenericCounts {
        len: count("len")?,
        no_late: count("no-late")?,
        lifetimes: count("lifetimes")?,
        early: count("early")?,
        late: count("late")?,
        type_or_consts: count("type-or-consts")?,
        predicates: count("predicates")?,
    })
}

/// A number, and what comes after it.
fn read_numbered<I: crate::ids::Id, T: Notation>(text: &str) -> Option<(I, T)> {
    let mut words = Words::new(text);
    let id = words.id()?;
    let value = T::read(&mut words)?;
    words.is_end().then_some((id, value))
}

fn read_index(text: &str) -> Option<(usize, bool)> {
    let mut words = Words::new(text);
    let index = usize::try_from(words.big()?).ok()?;
    let is_late = words.flag("late");
    (is_late || words.flag("early")).then_some(())?;
    words.is_end().then_some((index, is_late))
}

impl<D: SignatureData> Signature<D> {
    /// The signature of a definition, tested by the proved call of its kind. The store stays in its session, which then has the signature.
    pub fn new(
        id: D::Def,
        mut store: ExpressionStore,
        generic_params: GenericParams,
        data: D,
    ) -> std::result::Result<Signature<D>, Box<RefusedSignature<(GenericParams, D)>>> {
        let mut line = Line::new();
        generic_params.write(&mut line);
        data.write(id, &mut line);
        line.next_line();
        let tail = Tail {
            lines: line.into_string(),
            optional: layout(id.into()),
        };
        match store.claim(tail, fault) {
            Ok(()) => Ok(Signature {
                id,
                store,
                generic_params,
                data,
            }),
            Err(error) => Err(Box::new(RefusedSignature {
                error,
                store,
                parts: (generic_params, data),
            })),
        }
    }

    /// The definition that it is of.
    pub const fn id(&self) -> D::Def {
        self.id
    }

    /// The same, as what has generic parameters.
    pub fn def(&self) -> GenericDefId {
        self.id.into()
    }

    /// Its store.
    pub const fn store(&self) -> &ExpressionStore {
        &self.store
    }

    /// Its generic parameters, as it was made of them. A constant and a static have none, whatever they were made of.
    pub const fn generic_params(&self) -> &GenericParams {
        &self.generic_params
    }

    /// What it has beside them.
    pub const fn data(&self) -> &D {
        &self.data
    }

    /// The lines that make it.
    pub(crate) fn lines(&self) -> String {
        self.store.owned_lines()
    }

    /// The question on its generic parameters that has this word, and before the definition this.
    fn generics<T>(
        &self,
        word: &str,
        write: impl FnOnce(&mut Line),
        read: fn(&str) -> Option<T>,
    ) -> Result<T> {
        self.store.ask(&Query::of(
            word,
            |line| {
                write(line);
                line.word(self.def());
            },
            read,
        ))
    }

    /// How many generic parameters there are of each kind.
    pub fn generic_counts(&self) -> Result<GenericCounts> {
        self.generics("generics", |_| {}, read_counts)
    }

    /// The types and constants among them.
    pub fn type_or_consts(&self) -> Result<Vec<(LocalTypeOrConstParamId, TypeOrConstParamData)>> {
        self.generics("params", |_| {}, |text| read_lines(text, read_numbered))
    }

    /// The lifetimes among them.
    pub fn lifetime_params(&self) -> Result<Vec<(LocalLifetimeParamId, LifetimeParamData)>> {
        self.generics("lifetimes", |_| {}, |text| read_lines(text, read_numbered))
    }

    /// The lifetimes that get their arguments where the definition is named.
    pub fn early_bound_lifetimes(&self) -> Result<Vec<(LocalLifetimeParamId, LifetimeParamData)>> {
        self.generics(
            "early-lifetimes",
            |_| {},
            |text| read_lines(text, read_numbered),
        )
    }

    /// The lifetimes that get their arguments where the function is called.
    pub fn late_bound_lifetimes(&self) -> Result<Vec<(LocalLifetimeParamId, LifetimeParamData)>> {
        self.generics(
            "late-lifetimes",
            |_| {},
            |text| read_lines(text, read_numbered),
        )
    }

    /// What they have to fulfil.
    pub fn where_predicates(&self) -> Result<Vec<WherePredicate>> {
        self.generics(
            "predicates",
            |_| {},
            |text| {
                let numbered = read_lines(text, read_numbered::<LocalTypeOrConstParamId, _>)?;
                Some(
                    numbered
                        .into_iter()
                        .map(|(_, predicate)| predicate)
                        .collect(),
                )
            },
        )
    }

    /// The first type of this name.
    pub fn find_type_by_name(&self, name: &Name) -> Result<Option<LocalTypeOrConstParamId>> {
        self.generics("find-type", |line| line.name(name), read_opt_id)
    }

    /// The first constant of this name.
    pub fn find_const_by_name(&self, name: &Name) -> Result<Option<LocalTypeOrConstParamId>> {
        self.generics("find-const", |line| line.name(name), read_opt_id)
    }

    /// The first lifetime of this name.
    pub fn find_lifetime_by_name(&self, name: &Name) -> Result<Option<LocalLifetimeParamId>> {
        self.generics("find-lifetime", |line| line.name(name), read_opt_id)
    }

    /// The `Self` of a trait.
    pub fn trait_self_param(&self) -> Result<Option<LocalTypeOrConstParamId>> {
        self.generics("trait-self", |_| {}, read_opt_id)
    }

    /// The place of a lifetime among those that are bound as it is, and whether it is late bound.
    pub fn lifetime_param_idx(&self, id: LocalLifetimeParamId) -> Result<Option<(usize, bool)>> {
        self.generics(
            "lifetime-index",
            |line| line.id(id),
            |text| read_opt(text, read_index),
        )
    }

    /// The signature as text.
    pub fn print(&self, tables: &Tables, edition: Edition) -> Result<String> {
        let def = self.def();
        self.store.ask_with(
            tables,
            &Query::print("print-signature", |line| {
                line.word(def);
                line.word(edition.as_str());
            }),
        )
    }
}

/// The signature that has this number, as text, as that of another definition.
fn print_as<I: crate::ids::Id>(word: &str, id: I, head: I, edition: Edition) -> Query<String> {
    Query::print(word, |line| {
        line.id(id);
        line.prefixed_id("as:", Some(head));
        line.word(edition.as_str());
    })
}

impl FunctionSignature {
    /// The signature as text, as that of another function.
    pub fn print_as(&self, head: FunctionId, tables: &Tables, edition: Edition) -> Result<String> {
        self.store
            .ask_with(tables, &print_as("print-function", self.id, head, edition))
    }
}

impl StructSignature {
    /// The signature as text, as that of another struct.
    pub fn print_as(&self, head: StructId, tables: &Tables, edition: Edition) -> Result<String> {
        self.store
            .ask_with(tables, &print_as("print-struct", self.id, head, edition))
    }
}

/// The layout that the text of a struct's signature has.
fn layout(def: GenericDefId) -> Option<Key> {
    match def {
        GenericDefId::AdtId(crate::def::AdtId::StructId(id)) => Some(Key::Repr(id)),
        _ => None,
    }
}

/// The store of the signature.
impl<D: SignatureData> Deref for Signature<D> {
    type Target = ExpressionStore;

    fn deref(&self) -> &ExpressionStore {
        &self.store
    }
}

/// The signatures are of one definition, and have the same parts.
impl<D: SignatureData + PartialEq> PartialEq for Signature<D> {
    fn eq(&self, other: &Signature<D>) -> bool {
        self.id == other.id
            && self.store == other.store
            && self.generic_params == other.generic_params
            && self.data == other.data
    }
}

impl<D: SignatureData + Eq> Eq for Signature<D> {}
