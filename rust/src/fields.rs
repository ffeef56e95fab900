//! The fields of structs, unions and variants: a store of types, and the fields that have them.

use crate::def::VariantId;
use crate::error::Result;
use crate::hir::ModPath;
use crate::ids::{ExprId, TypeRefId};
use crate::link::Tail;
use crate::name::Name;
use crate::notation::path::join_mod_path;
use crate::notation::Line;
use crate::query::Query;
use crate::signature::{fault, RefusedSignature};
use crate::store::ExpressionStore;
use crate::tables::{Edition, Tables};
use std::ops::Deref;

/// How fields are written.
#[derive(Clone, Copy, PartialEq, Eq, Hash, Debug)]
#[cfg_attr(hir_serde, derive(serde::Serialize, serde::Deserialize))]
pub enum FieldsShape {
    /// `{ .. }`
    Record,
    /// `( .. )`
    Tuple,
    /// Not at all.
    Unit,
}

impl FieldsShape {
    pub(crate) const fn as_str(self) -> &'static str {
        match self {
            FieldsShape::Record => "record",
            FieldsShape::Tuple => "tuple",
            FieldsShape::Unit => "unit",
        }
    }
}

/// The visibility of a field.
#[derive(Clone, PartialEq, Eq, Hash, Debug)]
#[cfg_attr(hir_serde, derive(serde::Serialize, serde::Deserialize))]
pub enum RawVisibility {
    /// `pub(in path)`, or private: from this module.
    Module(ModPath),
    /// `pub`
    Public,
    /// `pub(crate)`
    PubCrate,
    /// `pub(self)`
    PubSelf,
}

/// A field.
#[derive(Clone, PartialEq, Eq, Hash, Debug)]
#[cfg_attr(hir_serde, derive(serde::Serialize, serde::Deserialize))]
pub struct FieldData {
    /// Its name.
    pub name: Name,
    /// Its type.
    pub type_ref: TypeRefId,
    /// From where it is seen.
    pub visibility: RawVisibility,
    /// Whether it is an `unsafe` field.
    pub is_unsafe: bool,
    /// Its default where a record literal leaves it out.
    pub default_value: Option<ExprId>,
}

/// The parts of fields that were refused, and why.
pub type RefusedFields = RefusedSignature<(FieldsShape, Vec<FieldData>)>;

/// The fields of a struct, a union or a variant of an enum.
///
/// ```
/// use hir_expr_store::{
///     Edition, ExpressionStoreBuilder, FieldData, FieldsShape, RawVisibility, StructId, Tables, VariantFields, make,
/// };
///
/// # fn main() -> Result<(), hir_expr_store::HirError> {
/// let id = StructId::from_raw(0);
/// let mut builder = ExpressionStoreBuilder::new();
/// let field = FieldData {
///     name: "a".into(),
///     type_ref: make::path_type(&mut builder, "u32"),
///     visibility: RawVisibility::Public,
///     is_unsafe: false,
///     default_value: None,
/// };
/// let fields = VariantFields::new(id, builder.finish()?, FieldsShape::Record, vec![field])?;
/// let mut tables = Tables::new();
/// tables.add_name(id, Some(&"S".into()));
/// assert_eq!(fields.print(&tables, Edition::Edition2021)?, "struct S {\npub a: u32,\n}\n");
/// # Ok(())
/// # }
/// ```
#[derive(Debug)]
pub struct VariantFields {
    variant: VariantId,
    store: ExpressionStore,
    shape: FieldsShape,
    fields: Vec<FieldData>,
}

/// As after `field`.
fn write_field(field: &FieldData, line: &mut Line) {
    line.keyword("field");
    line.name(&field.name);
    line.id(field.type_ref);
    match &field.visibility {
        RawVisibility::Public => line.keyword("pub"),
        RawVisibility::PubCrate => line.keyword("pub(crate)"),
        RawVisibility::PubSelf => line.keyword("pub(self)"),
        RawVisibility::Module(path) => {
            line.keyword("pub(in:");
            join_mod_path(path, line);
            line.join(')');
        }
    }
    line.flag(field.is_unsafe, "unsafe");
    line.prefixed_id("default:", field.default_value);
}

impl VariantFields {
    /// The fields of a struct, a union or a variant, tested by the proved `VariantFields::new`.
    pub fn new(
        variant: impl Into<VariantId>,
        mut store: ExpressionStore,
        shape: FieldsShape,
        fields: Vec<FieldData>,
    ) -> std::result::Result<VariantFields, Box<RefusedFields>> {
        let variant = variant.into();
        let mut line = Line::new();
        for field in &fields {
            write_field(field, &mut line);
            line.next_line();
        }
        line.keyword("variant");
        line.word(variant);
        line.word(shape.as_str());
        line.next_line();
        let tail = Tail {
            lines: line.into_string(),
            optional: None,
        };
        match store.claim(tail, fault) {
            Ok(()) => Ok(VariantFields {
                variant,
                store,
                shape,
                fields,
            }),
            Err(error) => Err(Box::new(RefusedSignature {
                error,
                store,
                parts: (shape, fields),
            })),
        }
    }

    /// What they are the fields of.
    pub const fn variant(&self) -> VariantId {
        self.variant
    }

    /// Their store.
    pub const fn store(&self) -> &ExpressionStore {
        &self.store
    }

    /// How they are written.
    pub const fn shape(&self) -> FieldsShape {
        self.shape
    }

    /// The fields, in their order.
    pub fn fields(&self) -> &[FieldData] {
        &self.fields
    }

    /// The lines that make them.
    pub(crate) fn lines(&self) -> String {
        self.store.owned_lines()
    }

    /// The fields as text, with the name of what they are of.
    pub fn print(&self, tables: &Tables, edition: Edition) -> Result<String> {
        self.store.ask_with(
            tables,
            &Query::print("print-variant", |line| {
                line.word(self.variant);
                line.word(edition.as_str());
            }),
        )
    }
}

/// The store of the fields.
impl Deref for VariantFields {
    type Target = ExpressionStore;

    fn deref(&self) -> &ExpressionStore {
        &self.store
    }
}

/// The fields are of one definition, and have the same parts.
impl PartialEq for VariantFields {
    fn eq(&self, other: &VariantFields) -> bool {
        self.variant == other.variant
            && self.store == other.store
            && self.shape == other.shape
            && self.fields == other.fields
    }
}

impl Eq for VariantFields {}
