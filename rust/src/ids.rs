//! Ids: the numbers of nodes and of definitions, each of a type of its own.

use std::fmt;
use std::hash::Hash;

/// The number of something, as of a node of an arena.
pub trait Id: Copy + Eq + Ord + Hash + fmt::Debug {
    /// The name of the type.
    const NAME: &'static str;

    /// The id of this number.
    fn from_raw(number: u32) -> Self;

    /// The number of the id.
    fn into_raw(self) -> u32;
}

macro_rules! ids {
    ($($(#[$meta:meta])* $name:ident;)*) => {$(
        $(#[$meta])*
        #[derive(Clone, Copy, PartialEq, Eq, PartialOrd, Ord, Hash)]
        #[cfg_attr(hir_serde, derive(serde::Serialize, serde::Deserialize), serde(transparent))]
        pub struct $name(u32);

        impl $name {
            /// The id of this number.
            pub const fn from_raw(number: u32) -> $name {
                $name(number)
            }

            /// The number of the id.
            pub const fn into_raw(self) -> u32 {
                self.0
            }
        }

        impl Id for $name {
            const NAME: &'static str = stringify!($name);

            fn from_raw(number: u32) -> $name {
                $name(number)
            }

            fn into_raw(self) -> u32 {
                self.0
            }
        }

        /// Its type and its number, as `ExprId(3)`.
        impl fmt::Display for $name {
            fn fmt(&self, f: &mut fmt::Formatter<'_>) -> fmt::Result {
                write!(f, "{}({})", $name::NAME, self.0)
            }
        }

        /// The same.
        impl fmt::Debug for $name {
            fn fmt(&self, f: &mut fmt::Formatter<'_>) -> fmt::Result {
                fmt::Display::fmt(self, f)
            }
        }
    )*};
}

ids! {
    /// An expression of a store.
    ExprId;
    /// A pattern of a store.
    PatId;
    /// A binding of a store: a variable that a pattern brings into scope.
    BindingId;
    /// A label of a store.
    LabelId;
    /// A type of a store.
    TypeRefId;
    /// A lifetime of a store.
    LifetimeRefId;
    /// A function.
    FunctionId;
    /// A struct.
    StructId;
    /// A union.
    UnionId;
    /// An enum.
    EnumId;
    /// A variant of an enum.
    EnumVariantId;
    /// A constant.
    ConstId;
    /// A static.
    StaticId;
    /// A trait.
    TraitId;
    /// An impl.
    ImplId;
    /// A type alias.
    TypeAliasId;
    /// A macro of `macro`.
    Macro2Id;
    /// A macro of `macro_rules!`.
    MacroRulesId;
    /// A macro that is a function.
    ProcMacroId;
    /// A block with items of its own.
    BlockId;
    /// A crate.
    CrateId;
    /// The definition of a macro among statements.
    MacroDefId;
    /// A type or constant parameter among those of its definition.
    LocalTypeOrConstParamId;
    /// A lifetime parameter among those of its definition.
    LocalLifetimeParamId;
    /// A file, or the text that a macro call expanded to.
    HirFileId;
    /// A macro call.
    MacroCallId;
}
