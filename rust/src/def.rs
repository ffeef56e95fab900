//! Definitions: what may own a store, have a body, have fields, have generic parameters, or be named.

use crate::ids::{
    ConstId, EnumId, EnumVariantId, FunctionId, ImplId, LocalLifetimeParamId,
    LocalTypeOrConstParamId, Macro2Id, MacroRulesId, ProcMacroId, StaticId, StructId, TraitId,
    TypeAliasId, UnionId,
};
use crate::notation::{Line, Notation, Words};
use std::fmt;

macro_rules! definitions {
    ($($(#[$meta:meta])* $name:ident { $($(#[$variant_meta:meta])* $variant:ident($id:ident),)* })*) => {$(
        $(#[$meta])*
        #[derive(Clone, Copy, PartialEq, Eq, PartialOrd, Ord, Hash, Debug)]
#[cfg_attr(hir_serde, derive(serde::Serialize, serde::Deserialize))]
        pub enum $name {
            $($(#[$variant_meta])* $variant($id),)*
        }

        /// The id, as `FunctionId(3)`.
        impl fmt::Display for $name {
            fn fmt(&self, f: &mut fmt::Formatter<'_>) -> fmt::Result {
                match self {
                    $($name::$variant(id) => fmt::Display::fmt(id, f),)*
                }
            }
        }

        $(impl From<$id> for $name {
            fn from(id: $id) -> $name {
                $name::$variant(id)
            }
        })*

        impl Notation for $name {
            fn write(&self, line: &mut Line) {
                line.join(self);
            }

            fn read(words: &mut Words<'_>) -> Option<$name> {
                $(if let Some(id) = words.attempt(<$id as Notation>::read) {
                    return Some($name::$variant(id));
                })*
                None
            }
        }
    )*};
}

definitions! {
    /// A struct, a union or an enum.
    AdtId {
        /// A struct.
        StructId(StructId),
        /// A union.
        UnionId(UnionId),
        /// An enum.
        EnumId(EnumId),
    }

    /// What may have generic parameters.
    GenericDefId {
        /// A struct, a union or an enum.
        AdtId(AdtId),
        /// A constant.
        ConstId(ConstId),
        /// A function.
        FunctionId(FunctionId),
        /// An impl.
        ImplId(ImplId),
        /// A static.
        StaticId(StaticId),
        /// A trait.
        TraitId(TraitId),
        /// A type alias.
        TypeAliasId(TypeAliasId),
    }

    /// A definition whose signature is its generic parameters alone.
    PlainDef {
        /// An enum.
        EnumId(EnumId),
        /// A union.
        UnionId(UnionId),
        /// A constant.
        ConstId(ConstId),
        /// A static.
        StaticId(StaticId),
        /// An impl.
        ImplId(ImplId),
        /// A trait.
        TraitId(TraitId),
        /// A type alias.
        TypeAliasId(TypeAliasId),
    }

    /// What has a body.
    DefWithBodyId {
        /// Its block.
        FunctionId(FunctionId),
        /// Its initializer.
        StaticId(StaticId),
        /// Its initializer.
        ConstId(ConstId),
        /// The discriminant of a variant of an enum.
        VariantId(EnumVariantId),
    }

    /// What has fields.
    VariantId {
        /// A variant of an enum.
        EnumVariantId(EnumVariantId),
        /// A struct.
        StructId(StructId),
        /// A union.
        UnionId(UnionId),
    }

    /// A macro, by how it is written.
    MacroId {
        /// `macro`
        Macro2Id(Macro2Id),
        /// `macro_rules!`
        MacroRulesId(MacroRulesId),
        /// A function.
        ProcMacroId(ProcMacroId),
    }

    /// What may be a lang item.
    LangItemTarget {
        /// An impl.
        ImplId(ImplId),
        /// An enum.
        EnumId(EnumId),
        /// A function.
        FunctionId(FunctionId),
        /// A static.
        StaticId(StaticId),
        /// A struct.
        StructId(StructId),
        /// A union.
        UnionId(UnionId),
        /// A type alias.
        TypeAliasId(TypeAliasId),
        /// A trait.
        TraitId(TraitId),
        /// A variant of an enum.
        EnumVariantId(EnumVariantId),
        /// A constant.
        ConstId(ConstId),
        /// A macro.
        MacroId(MacroId),
    }

    /// What has a name of its own, or may be written without one.
    NamedDef {
        /// An enum.
        EnumId(EnumId),
        /// A function.
        FunctionId(FunctionId),
        /// A static.
        StaticId(StaticId),
        /// A struct.
        StructId(StructId),
        /// A union.
        UnionId(UnionId),
        /// A type alias.
        TypeAliasId(TypeAliasId),
        /// A trait.
        TraitId(TraitId),
        /// A variant of an enum.
        EnumVariantId(EnumVariantId),
        /// A constant.
        ConstId(ConstId),
        /// A macro.
        MacroId(MacroId),
    }
}

/// The definition, as what has generic parameters.
impl From<PlainDef> for GenericDefId {
    fn from(def: PlainDef) -> GenericDefId {
        match def {
            PlainDef::EnumId(id) => GenericDefId::AdtId(id.into()),
            PlainDef::UnionId(id) => GenericDefId::AdtId(id.into()),
            PlainDef::ConstId(id) => id.into(),
            PlainDef::StaticId(id) => id.into(),
            PlainDef::ImplId(id) => id.into(),
            PlainDef::TraitId(id) => id.into(),
            PlainDef::TypeAliasId(id) => id.into(),
        }
    }
}

macro_rules! adts {
    ($($id:ident)*) => {$(
        impl From<$id> for GenericDefId {
            fn from(id: $id) -> GenericDefId {
                GenericDefId::AdtId(id.into())
            }
        }
    )*};
}

adts! { StructId UnionId EnumId }

macro_rules! macros {
    ($($id:ident)*) => {$(
        impl From<$id> for NamedDef {
            fn from(id: $id) -> NamedDef {
                NamedDef::MacroId(id.into())
            }
        }

        impl From<$id> for LangItemTarget {
            fn from(id: $id) -> LangItemTarget {
                LangItemTarget::MacroId(id.into())
            }
        }
    )*};
}

macros! { Macro2Id MacroRulesId ProcMacroId }

/// A type or constant parameter of a definition.
#[derive(Clone, Copy, PartialEq, Eq, PartialOrd, Ord, Hash, Debug)]
#[cfg_attr(hir_serde, derive(serde::Serialize, serde::Deserialize))]
pub struct TypeOrConstParamId {
    /// The definition.
    pub parent: GenericDefId,
    /// Its number among the definition's type and constant parameters.
    pub local_id: LocalTypeOrConstParamId,
}

/// A type parameter of a definition. Nothing checks that the parameter is one of types.
#[derive(Clone, Copy, PartialEq, Eq, PartialOrd, Ord, Hash, Debug)]
#[cfg_attr(hir_serde, derive(serde::Serialize, serde::Deserialize))]
pub struct TypeParamId(pub TypeOrConstParamId);

/// A lifetime parameter of a definition.
#[derive(Clone, Copy, PartialEq, Eq, PartialOrd, Ord, Hash, Debug)]
#[cfg_attr(hir_serde, derive(serde::Serialize, serde::Deserialize))]
pub struct LifetimeParamId {
    /// The definition.
    pub parent: GenericDefId,
    /// Its number among the definition's lifetime parameters.
    pub local_id: LocalLifetimeParamId,
}
