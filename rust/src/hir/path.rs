//! Paths with their generic arguments, as `crate::foo` or `<Type as Trait>::bar::<u8>`; and bounds.

use crate::def::LangItemTarget;
use crate::ids::{CrateId, ExprId, LifetimeRefId, TypeRefId};
use crate::name::Name;

/// Where a path begins.
#[derive(Clone, Copy, PartialEq, Eq, Hash, Debug)]
#[cfg_attr(hir_serde, derive(serde::Serialize, serde::Deserialize))]
pub enum PathKind {
    /// At a name that is in scope.
    Plain,
    /// At this number of modules above the present one: `self` for 0, `super` for 1, `super::super` for 2.
    Super(u8),
    /// At `crate`.
    Crate,
    /// At a leading `::`.
    Abs,
    /// At `$crate`, of a macro that this crate defines.
    DollarCrate(CrateId),
}

impl PathKind {
    /// The kind of paths that begin with `self`.
    pub const SELF: PathKind = PathKind::Super(0);
}

/// A path without arguments: where it begins, and its segments.
#[derive(Clone, PartialEq, Eq, Hash, Debug)]
#[cfg_attr(hir_serde, derive(serde::Serialize, serde::Deserialize))]
pub struct ModPath {
    /// Where it begins.
    pub kind: PathKind,
    /// Its names, first to last. The prefix that its kind says, as `crate`, isn't one of them.
    pub segments: Vec<Name>,
}

impl ModPath {
    /// The plain path of this name.
    pub fn from_name(name: Name) -> ModPath {
        ModPath::from_segments(PathKind::Plain, [name])
    }

    /// The path of this kind and with these segments.
    pub fn from_segments(kind: PathKind, segments: impl IntoIterator<Item = Name>) -> ModPath {
        ModPath {
            kind,
            segments: segments.into_iter().collect(),
        }
    }

    /// The name, where the path is one name and nothing before it.
    pub fn as_ident(&self) -> Option<&Name> {
        match self.segments.as_slice() {
            [name] if self.kind == PathKind::Plain => Some(name),
            _ => None,
        }
    }
}

/// A path.
#[derive(Clone, PartialEq, Eq, Hash, Debug)]
#[cfg_attr(hir_serde, derive(serde::Serialize, serde::Deserialize))]
pub enum Path {
    /// A path with neither generic arguments nor a type anchor, as most are.
    BarePath(ModPath),
    /// A path with generic arguments or a type anchor, as `Vec::<u8>::new`.
    Normal(Box<NormalPath>),
    /// A lang item, and perhaps one name in it.
    LangItem(LangItemTarget, Option<Name>),
}

impl Path {
    /// The plain path of one name.
    pub fn from_name(name: Name) -> Path {
        Path::BarePath(ModPath::from_name(name))
    }

    /// The path with these arguments, one place for each segment: a `BarePath` where no segment has arguments.
    pub fn from_known_path(path: ModPath, generic_args: Vec<Option<GenericArgs>>) -> Path {
        Path::with(NormalPath {
            generic_args,
            type_anchor: None,
            mod_path: path,
        })
    }

    /// The path with these parts: a `BarePath` where it has neither an anchor nor arguments.
    pub fn with(path: NormalPath) -> Path {
        if path.type_anchor.is_none() && path.generic_args.iter().all(Option::is_none) {
            Path::BarePath(path.mod_path)
        } else {
            Path::Normal(Box::new(path))
        }
    }

    /// The path without anchor and arguments. `None` for a lang item.
    pub fn mod_path(&self) -> Option<&ModPath> {
        match self {
            Path::BarePath(path) => Some(path),
            Path::Normal(path) => Some(&path.mod_path),
            Path::LangItem(..) => None,
        }
    }

    /// The name, where the path is one plain name without anchor and arguments: such a path may name a variable.
    pub fn as_ident(&self) -> Option<&Name> {
        match self {
            Path::BarePath(path) => path.as_ident(),
            Path::Normal(_) | Path::LangItem(..) => None,
        }
    }
}

/// A path with generic arguments or a type anchor.
///
/// There is one place for each segment: `Vec::<u8>::new` has the places `[Some([u8]), None]`. A store refuses a path with fewer or more.
#[derive(Clone, PartialEq, Eq, Hash, Debug)]
#[cfg_attr(hir_serde, derive(serde::Serialize, serde::Deserialize))]
pub struct NormalPath {
    /// For each segment its arguments, if it has any.
    pub generic_args: Vec<Option<GenericArgs>>,
    /// The type that the path begins at, as the `T` of `<T>::f`.
    pub type_anchor: Option<TypeRefId>,
    /// The path without its arguments.
    pub mod_path: ModPath,
}

/// How generic arguments were written.
#[derive(Clone, Copy, PartialEq, Eq, Hash, Debug, Default)]
#[cfg_attr(hir_serde, derive(serde::Serialize, serde::Deserialize))]
pub enum GenericArgsParentheses {
    /// Without parentheses.
    #[default]
    No,
    /// As `(..)`, which names the type that a function returns.
    ReturnTypeNotation,
    /// As the arguments and the result of `Fn(A, B) -> C`: one argument, a tuple, and a binding of `Output`.
    ParenSugar,
}

/// The generic arguments of one segment, as the `<u8, Item = T>` of `Iter<u8, Item = T>`.
#[derive(Clone, PartialEq, Eq, Hash, Debug, Default)]
#[cfg_attr(hir_serde, derive(serde::Serialize, serde::Deserialize))]
pub struct GenericArgs {
    /// The types, lifetimes and constants.
    pub args: Vec<GenericArg>,
    /// Whether the first argument is the self type of a trait, as the `T` of `<T as Trait>`.
    pub has_self_type: bool,
    /// The bindings and bounds of associated types.
    pub bindings: Vec<AssociatedTypeBinding>,
    /// How they were written.
    pub parenthesized: GenericArgsParentheses,
}

/// The binding or bounds of one associated type, as the `Item = T` of `Iterator<Item = T>`.
#[derive(Clone, PartialEq, Eq, Hash, Debug)]
#[cfg_attr(hir_serde, derive(serde::Serialize, serde::Deserialize))]
pub struct AssociatedTypeBinding {
    /// The name of the associated type, as `Item`.
    pub name: Name,
    /// The arguments of the associated type itself.
    pub args: Option<GenericArgs>,
    /// The type that it is. `None` where it only has bounds, as in `Item: Debug`.
    pub type_ref: Option<TypeRefId>,
    /// The bounds that it has. Empty for `Item = T`.
    pub bounds: Vec<TypeBound>,
}

/// One generic argument.
#[derive(Clone, Copy, PartialEq, Eq, Hash, Debug)]
#[cfg_attr(hir_serde, derive(serde::Serialize, serde::Deserialize))]
pub enum GenericArg {
    /// A type.
    Ty(TypeRefId),
    /// A lifetime.
    Lifetime(LifetimeRefId),
    /// A constant.
    Const(ConstRef),
}

/// A constant in a type or an argument list: an expression that sees no local variables.
#[derive(Clone, Copy, PartialEq, Eq, Hash, Debug)]
#[cfg_attr(hir_serde, derive(serde::Serialize, serde::Deserialize))]
pub struct ConstRef {
    /// The expression.
    pub expr: ExprId,
}

/// The id of a type that is a path. `finish` refuses a bound with any other type.
#[derive(Clone, Copy, PartialEq, Eq, PartialOrd, Ord, Hash, Debug)]
#[cfg_attr(hir_serde, derive(serde::Serialize, serde::Deserialize))]
pub struct PathId(TypeRefId);

impl PathId {
    /// This type, which should be a path: nothing checks it here.
    pub const fn from_type_ref_unchecked(type_ref: TypeRefId) -> PathId {
        PathId(type_ref)
    }

    /// The type that is the path.
    pub const fn type_ref(self) -> TypeRefId {
        self.0
    }
}

/// A bound: what a type has to be or to outlive.
#[derive(Clone, PartialEq, Eq, Hash, Debug)]
#[cfg_attr(hir_serde, derive(serde::Serialize, serde::Deserialize))]
pub enum TypeBound {
    /// A trait, perhaps behind `?`.
    Path(PathId, TraitBoundModifier),
    /// A trait behind `for<..>` with these lifetimes.
    ForLifetime(Vec<Name>, PathId),
    /// A lifetime.
    Lifetime(LifetimeRefId),
    /// What `use<..>` lists.
    Use(Vec<UseArgRef>),
    /// What could not be lowered.
    Error,
}

/// What a bound `use<..>` lists.
#[derive(Clone, PartialEq, Eq, Hash, Debug)]
#[cfg_attr(hir_serde, derive(serde::Serialize, serde::Deserialize))]
pub enum UseArgRef {
    /// A type or constant parameter, by its name.
    Name(Name),
    /// A lifetime.
    Lifetime(LifetimeRefId),
}

/// The modifier before the trait of a bound.
#[derive(Clone, Copy, PartialEq, Eq, Hash, Debug)]
#[cfg_attr(hir_serde, derive(serde::Serialize, serde::Deserialize))]
pub enum TraitBoundModifier {
    /// None.
    None,
    /// `?`
    Maybe,
}
