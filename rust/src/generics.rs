//! Generic parameters and the predicates of `where` clauses.

use crate::arena::Arena;
use crate::hir::{ConstRef, TypeBound};
use crate::ids::{LifetimeRefId, LocalLifetimeParamId, LocalTypeOrConstParamId, TypeRefId};
use crate::name::Name;
use crate::notation::path::read_binder;
use crate::notation::{Line, Notation, Words};

/// Where a type parameter comes from.
#[derive(Clone, Copy, PartialEq, Eq, Hash, Debug, Default)]
#[cfg_attr(hir_serde, derive(serde::Serialize, serde::Deserialize))]
pub enum TypeParamProvenance {
    /// It is written in a list `<..>`.
    #[default]
    TypeParamList,
    /// It is the `Self` of a trait.
    TraitSelf,
    /// It is an `impl Trait` in argument position.
    ArgumentImplTrait,
}

/// A parameter that is a type.
#[derive(Clone, PartialEq, Eq, Hash, Debug)]
#[cfg_attr(hir_serde, derive(serde::Serialize, serde::Deserialize))]
pub struct TypeParamData {
    /// Its name. An `impl Trait` in argument position has none.
    pub name: Option<Name>,
    /// The default, which is taken if no argument is given.
    pub default: Option<TypeRefId>,
    /// Where it comes from.
    pub provenance: TypeParamProvenance,
}

/// A parameter that is a constant.
#[derive(Clone, PartialEq, Eq, Hash, Debug)]
#[cfg_attr(hir_serde, derive(serde::Serialize, serde::Deserialize))]
pub struct ConstParamData {
    /// Its name.
    pub name: Name,
    /// The type of the constant.
    pub ty: TypeRefId,
    /// The default, which is taken if no argument is given.
    pub default: Option<ConstRef>,
}

/// A parameter that is a type or a constant.
#[derive(Clone, PartialEq, Eq, Hash, Debug)]
#[cfg_attr(hir_serde, derive(serde::Serialize, serde::Deserialize))]
pub enum TypeOrConstParamData {
    /// A type.
    TypeParamData(TypeParamData),
    /// A constant.
    ConstParamData(ConstParamData),
}

impl TypeOrConstParamData {
    /// Its name, if it has one.
    pub fn name(&self) -> Option<&Name> {
        match self {
            TypeOrConstParamData::TypeParamData(param) => param.name.as_ref(),
            TypeOrConstParamData::ConstParamData(param) => Some(&param.name),
        }
    }
}

impl From<TypeParamData> for TypeOrConstParamData {
    fn from(param: TypeParamData) -> TypeOrConstParamData {
        TypeOrConstParamData::TypeParamData(param)
    }
}

impl From<ConstParamData> for TypeOrConstParamData {
    fn from(param: ConstParamData) -> TypeOrConstParamData {
        TypeOrConstParamData::ConstParamData(param)
    }
}

/// When a lifetime parameter gets its argument.
#[derive(Clone, Copy, PartialEq, Eq, Hash, Debug, Default)]
#[cfg_attr(hir_serde, derive(serde::Serialize, serde::Deserialize))]
pub enum LifetimeBoundType {
    /// Where the definition is named.
    #[default]
    EarlyBound,
    /// Where the function is called.
    LateBound,
}

/// A parameter that is a lifetime.
#[derive(Clone, PartialEq, Eq, Hash, Debug)]
#[cfg_attr(hir_serde, derive(serde::Serialize, serde::Deserialize))]
pub struct LifetimeParamData {
    /// Its name, with the `'` before it.
    pub name: Name,
    /// When it gets its argument.
    pub bound_type: LifetimeBoundType,
}

/// One predicate of a `where` clause. `where T: Foo + Bar` has two.
#[derive(Clone, PartialEq, Eq, Hash, Debug)]
#[cfg_attr(hir_serde, derive(serde::Serialize, serde::Deserialize))]
pub enum WherePredicate {
    /// A type has to fulfil a bound.
    TypeBound {
        /// The lifetimes of a `for<..>` before the type, if there is one.
        lifetimes: Option<Vec<Name>>,
        /// The type.
        target: TypeRefId,
        /// The bound.
        bound: TypeBound,
    },
    /// A lifetime has to outlive another.
    Lifetime {
        /// The lifetime.
        target: LifetimeRefId,
        /// The other.
        bound: LifetimeRefId,
    },
}

/// The generic parameters of a definition, and what they have to fulfil.
///
/// ```
/// use hir_expr_store::{ExpressionStoreBuilder, GenericParams, PlainDef, PlainSignature, TraitId, TypeParamData};
/// use hir_expr_store::TypeParamProvenance::{TraitSelf, TypeParamList};
///
/// # fn main() -> Result<(), hir_expr_store::HirError> {
/// let mut params = GenericParams::default();
/// for (name, provenance) in [("Self", TraitSelf), ("T", TypeParamList)] {
///     params.type_or_consts.alloc(TypeParamData { name: Some(name.into()), default: None, provenance }.into());
/// }
/// let store = ExpressionStoreBuilder::new().finish()?;
/// let id = PlainDef::TraitId(TraitId::from_raw(0));
/// let signature = PlainSignature::new(id, store, params, ())?;
/// assert_eq!(signature.find_type_by_name(&"T".into())?.map(|id| id.into_raw()), Some(1));
/// assert_eq!(signature.trait_self_param()?.map(|id| id.into_raw()), Some(0));
/// # Ok(())
/// # }
/// ```
#[derive(Clone, PartialEq, Eq, Debug, Default)]
#[cfg_attr(
    hir_serde,
    derive(serde::Serialize, serde::Deserialize),
    serde(default)
)]
pub struct GenericParams {
    /// The types and constants, in their order.
    pub type_or_consts: Arena<LocalTypeOrConstParamId, TypeOrConstParamData>,
    /// The lifetimes, in their order.
    pub lifetimes: Arena<LocalLifetimeParamId, LifetimeParamData>,
    /// The predicates, in their order.
    pub where_predicates: Vec<WherePredicate>,
}

/// `type-param ..` or `const-param ..`
impl Notation for TypeOrConstParamData {
    fn write(&self, line: &mut Line) {
        match self {
            TypeOrConstParamData::TypeParamData(param) => {
                line.keyword("type-param");
                match &param.name {
                    Some(name) => line.name(name),
                    None => line.word('-'),
                }
                line.prefixed_id("default:", param.default);
                match param.provenance {
                    TypeParamProvenance::TypeParamList => {}
                    TypeParamProvenance::TraitSelf => line.keyword("self"),
                    TypeParamProvenance::ArgumentImplTrait => line.keyword("impl"),
                }
            }
            TypeOrConstParamData::ConstParamData(param) => {
                line.keyword("const-param");
                line.name(&param.name);
                line.id(param.ty);
                line.prefixed_id("default:", param.default.map(|it| it.expr));
            }
        }
    }

    fn read(words: &mut Words<'_>) -> Option<TypeOrConstParamData> {
        match words.next_keyword()? {
            "type-param" => Some(TypeOrConstParamData::TypeParamData(TypeParamData {
                name: if words.flag("-") {
                    None
                } else {
                    Some(words.next_name()?)
                },
                default: words.prefixed_id("default:")?,
                provenance: if words.flag("self") {
                    TypeParamProvenance::TraitSelf
                } else if words.flag("impl") {
                    TypeParamProvenance::ArgumentImplTrait
                } else {
                    TypeParamProvenance::TypeParamList
                },
            })),
            "const-param" => Some(TypeOrConstParamData::ConstParamData(ConstParamData {
                name: words.next_name()?,
                ty: words.next_id()?,
                default: words.prefixed_id("default:")?.map(|expr| ConstRef { expr }),
            })),
            _ => None,
        }
    }
}

/// `lifetime-param ..`
impl Notation for LifetimeParamData {
    fn write(&self, line: &mut Line) {
        line.keyword("lifetime-param");
        line.name(&self.name);
        line.flag(self.bound_type == LifetimeBoundType::LateBound, "late");
    }

    fn read(words: &mut Words<'_>) -> Option<LifetimeParamData> {
        if words.next_keyword()? != "lifetime-param" {
            return None;
        }
        Some(LifetimeParamData {
            name: words.next_name()?,
            bound_type: if words.flag("late") {
                LifetimeBoundType::LateBound
            } else {
                LifetimeBoundType::EarlyBound
            },
        })
    }
}

/// `where ..` or `where-lifetime ..`
impl Notation for WherePredicate {
    fn write(&self, line: &mut Line) {
        match self {
            WherePredicate::TypeBound {
                lifetimes,
                target,
                bound,
            } => {
                line.keyword("where");
                line.id(*target);
                line.begin();
                bound.write(line);
                if let Some(names) = lifetimes {
                    line.keyword("for<");
                    line.join_names(names);
                    line.join('>');
                }
            }
            WherePredicate::Lifetime { target, bound } => {
                line.keyword("where-lifetime");
                line.id(*target);
                line.id(*bound);
            }
        }
    }

    fn read(words: &mut Words<'_>) -> Option<WherePredicate> {
        match words.next_keyword()? {
            "where" => {
                let target = words.next_id()?;
                words.begin()?;
                let bound = TypeBound::read(words)?;
                let lifetimes = if words.prefix("for<") {
                    Some(read_binder(words)?)
                } else {
                    None
                };
                Some(WherePredicate::TypeBound {
                    lifetimes,
                    target,
                    bound,
                })
            }
            "where-lifetime" => Some(WherePredicate::Lifetime {
                target: words.next_id()?,
                bound: words.next_id()?,
            }),
            _ => None,
        }
    }
}

fn write_each<'a, T: Notation + 'a>(items: impl IntoIterator<Item = &'a T>, line: &mut Line) {
    for item in items {
        item.write(line);
        line.next_line();
    }
}

impl GenericParams {
    /// Writes the lines that make them.
    pub(crate) fn write(&self, line: &mut Line) {
        write_each(self.type_or_consts.values(), line);
        write_each(self.lifetimes.values(), line);
        write_each(&self.where_predicates, line);
    }
}
