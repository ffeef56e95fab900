//! The items of the language that lowering names: what `for`, `?` and ranges stand for.

use hir_expr_store::hir::Path;
use hir_expr_store::{EnumId, EnumVariantId, FunctionId, LangItemTarget, Name, StructId, Tables};

/// The number of the function that is lowered.
pub const THIS: u32 = 0;

/// An item of the language.
#[derive(Clone, Copy)]
pub enum Lang {
    /// `IntoIterator::into_iter`
    IntoIter,
    /// `Iterator::next`
    Next,
    /// `Try::branch`
    Branch,
    /// `FromResidual::from_residual`
    FromResidual,
    /// `RangeInclusive::new`
    RangeInclusiveNew,
    /// `Option::None`
    None,
    /// `Option::Some`
    Some,
    /// `ControlFlow::Continue`
    Continue,
    /// `ControlFlow::Break`
    Break,
    /// `RangeFull`
    RangeFull,
    /// `Range`
    Range,
    /// `RangeFrom`
    RangeFrom,
    /// `RangeTo`
    RangeTo,
    /// `RangeToInclusive`
    RangeToInclusive,
}

const FUNCTIONS: [(u32, &str); 5] = [
    (1, "into_iter"),
    (2, "next"),
    (3, "branch"),
    (4, "from_residual"),
    (5, "new"),
];

const VARIANTS: [(u32, &str, u32); 4] = [
    (0, "None", 0),
    (1, "Some", 0),
    (2, "Continue", 1),
    (3, "Break", 1),
];

const ENUMS: [(u32, &str); 2] = [(0, "Option"), (1, "ControlFlow")];

const STRUCTS: [(u32, &str); 5] = [
    (0, "RangeFull"),
    (1, "Range"),
    (2, "RangeFrom"),
    (3, "RangeTo"),
    (4, "RangeToInclusive"),
];

impl Lang {
    fn target(self) -> LangItemTarget {
        let function = |number| FunctionId::from_raw(number).into();
        let variant = |number| EnumVariantId::from_raw(number).into();
        let of_struct = |number| StructId::from_raw(number).into();
        match self {
            Lang::IntoIter => function(1),
            Lang::Next => function(2),
            Lang::Branch => function(3),
            Lang::FromResidual => function(4),
            Lang::RangeInclusiveNew => function(5),
            Lang::None => variant(0),
            Lang::Some => variant(1),
            Lang::Continue => variant(2),
            Lang::Break => variant(3),
            Lang::RangeFull => of_struct(0),
            Lang::Range => of_struct(1),
            Lang::RangeFrom => of_struct(2),
            Lang::RangeTo => of_struct(3),
            Lang::RangeToInclusive => of_struct(4),
        }
    }

    /// Its path.
    pub fn path(self) -> Path {
        Path::LangItem(self.target(), None)
    }
}

/// The names of the items of the language, and that of the function.
pub fn tables(function: &str) -> Tables {
    let mut tables = Tables::new();
    tables.add_name(FunctionId::from_raw(THIS), Some(&Name::new(function)));
    for (number, name) in FUNCTIONS {
        tables.add_name(FunctionId::from_raw(number), Some(&name.into()));
    }
    for (number, name) in STRUCTS {
        tables.add_name(StructId::from_raw(number), Some(&name.into()));
    }
    for (number, name) in ENUMS {
        tables.add_name(EnumId::from_raw(number), Some(&name.into()));
    }
    for (number, name, parent) in VARIANTS {
        let variant = EnumVariantId::from_raw(number);
        tables.add_name(variant, Some(&name.into()));
        tables.add_variant_parent(variant, EnumId::from_raw(parent));
    }
    tables
}
