//! Types and lifetimes as they are written: their paths aren't resolved.

use super::{ConstRef, Path, TypeBound};
use crate::def::{LifetimeParamId, TypeParamId};
use crate::ids::{LifetimeRefId, PatId, TypeRefId};
use crate::name::Name;

/// Whether what is behind a reference or a pointer may be written.
#[derive(Clone, Copy, PartialEq, Eq, Hash, Debug)]
#[cfg_attr(hir_serde, derive(serde::Serialize, serde::Deserialize))]
pub enum Mutability {
    /// It may only be read.
    Shared,
    /// It may be written.
    Mut,
}

impl Mutability {
    /// `Mut` where it is mutable, else `Shared`.
    pub const fn from_mutable(mutable: bool) -> Mutability {
        if mutable {
            Mutability::Mut
        } else {
            Mutability::Shared
        }
    }

    /// Whether it is `Mut`.
    pub const fn is_mut(self) -> bool {
        matches!(self, Mutability::Mut)
    }
}

/// Whether `&` makes a pointer or a reference.
#[derive(Clone, Copy, PartialEq, Eq, Hash, Debug)]
#[cfg_attr(hir_serde, derive(serde::Serialize, serde::Deserialize))]
pub enum Rawness {
    /// A pointer: `&raw`.
    RawPtr,
    /// A reference.
    Ref,
}

impl Rawness {
    /// `RawPtr` where it is raw, else `Ref`.
    pub const fn from_raw(is_raw: bool) -> Rawness {
        if is_raw {
            Rawness::RawPtr
        } else {
            Rawness::Ref
        }
    }

    /// Whether it is `RawPtr`.
    pub const fn is_raw(self) -> bool {
        matches!(self, Rawness::RawPtr)
    }
}

/// A calling convention.
#[derive(Clone, PartialEq, Eq, Hash, Debug, Default)]
#[cfg_attr(hir_serde, derive(serde::Serialize, serde::Deserialize))]
pub enum ExternAbi {
    /// That of Rust.
    #[default]
    Rust,
    /// `C`
    C,
    /// `C-unwind`
    CUnwind,
    /// `system`
    System,
    /// `system-unwind`
    SystemUnwind,
    /// Any other.
    Named(String),
}

/// The type of a function pointer.
#[derive(Clone, PartialEq, Eq, Hash, Debug)]
#[cfg_attr(hir_serde, derive(serde::Serialize, serde::Deserialize))]
pub struct FnType {
    /// The lifetimes of a `for<..>` before it, where one is written.
    pub binder: Option<Vec<Name>>,
    /// The parameters, each with its name where it has one, and last the return type.
    pub params: Vec<(Option<Name>, TypeRefId)>,
    /// Whether `...` follows the parameters.
    pub is_varargs: bool,
    /// Whether it is `unsafe`.
    pub is_unsafe: bool,
    /// Its calling convention.
    pub abi: ExternAbi,
}

/// The type of an array.
#[derive(Clone, PartialEq, Eq, Hash, Debug)]
#[cfg_attr(hir_serde, derive(serde::Serialize, serde::Deserialize))]
pub struct ArrayType {
    /// The type of its items.
    pub ty: TypeRefId,
    /// The number of its items.
    pub len: ConstRef,
}

/// The type of a reference.
#[derive(Clone, PartialEq, Eq, Hash, Debug)]
#[cfg_attr(hir_serde, derive(serde::Serialize, serde::Deserialize))]
pub struct RefType {
    /// The type of what it refers to.
    pub ty: TypeRefId,
    /// Its lifetime, where one is written.
    pub lifetime: Option<LifetimeRefId>,
    /// Whether it is `&mut`.
    pub mutability: Mutability,
}

/// A lifetime.
#[derive(Clone, PartialEq, Eq, Hash, Debug)]
#[cfg_attr(hir_serde, derive(serde::Serialize, serde::Deserialize))]
pub enum LifetimeRef {
    /// A name, with the `'` at its front.
    Named(Name),
    /// `'static`
    Static,
    /// `'_`
    Placeholder,
    /// A parameter of a definition.
    Param(LifetimeParamId),
    /// What could not be lowered.
    Error,
}

/// A type.
#[derive(Clone, PartialEq, Eq, Hash, Debug)]
#[cfg_attr(hir_serde, derive(serde::Serialize, serde::Deserialize))]
pub enum TypeRef {
    /// `!`
    Never,
    /// `_`
    Placeholder,
    /// What could not be lowered.
    Error,
    /// `(A, B)`
    Tuple(Vec<TypeRefId>),
    /// A path.
    Path(Path),
    /// `*const T`
    RawPtr(TypeRefId, Mutability),
    /// `&T`
    Reference(Box<RefType>),
    /// `[T; n]`
    Array(ArrayType),
    /// `[T]`
    Slice(TypeRefId),
    /// A function pointer. The last entry of its parameters is the return type.
    Fn(Box<FnType>),
    /// `impl Trait`
    ImplTrait(Vec<TypeBound>),
    /// `dyn Trait`
    DynTrait(Vec<TypeBound>),
    /// A parameter of a definition.
    TypeParam(TypeParamId),
    /// A type, and a pattern that its values match.
    PatternType(TypeRefId, PatId),
}
