//! Definitions and their parameters: `FunctionId(7)`, and so on.

use super::{Line, Notation, Words};
use crate::def::{LifetimeParamId, TypeOrConstParamId, TypeParamId};
use crate::ids::{
    ConstId, EnumId, EnumVariantId, FunctionId, Id, ImplId, Macro2Id, MacroRulesId, ProcMacroId,
    StaticId, StructId, TraitId, TypeAliasId, UnionId,
};

macro_rules! definition_ids {
    ($($name:ident)*) => {$(
        impl Notation for $name {
            fn write(&self, line: &mut Line) {
                line.join(self);
            }

            fn read(words: &mut Words<'_>) -> Option<$name> {
                if words.keyword() != $name::NAME {
                    return None;
                }
                words.expect("(")?;
                let id = words.id()?;
                words.expect(")")?;
                Some(id)
            }
        }
    )*};
}

definition_ids! {
    FunctionId StructId UnionId EnumId EnumVariantId ConstId StaticId TraitId ImplId TypeAliasId Macro2Id MacroRulesId ProcMacroId
}

/// The definition and the number, as two words.
impl Notation for TypeParamId {
    fn write(&self, line: &mut Line) {
        line.begin();
        self.0.parent.write(line);
        line.id(self.0.local_id);
    }

    fn read(words: &mut Words<'_>) -> Option<TypeParamId> {
        words.begin()?;
        Some(TypeParamId(TypeOrConstParamId {
            parent: Notation::read(words)?,
            local_id: words.next_id()?,
        }))
    }
}

/// The same.
impl Notation for LifetimeParamId {
    fn write(&self, line: &mut Line) {
        line.begin();
        self.parent.write(line);
        line.id(self.local_id);
    }

    fn read(words: &mut Words<'_>) -> Option<LifetimeParamId> {
        words.begin()?;
        Some(LifetimeParamId {
            parent: Notation::read(words)?,
            local_id: words.next_id()?,
        })
    }
}
