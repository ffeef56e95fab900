//! The builder of a store: nodes and roots that aren't tested yet, and where they come from.

use crate::arena::Arena;
use crate::error::{HirError, Result};
use crate::fault::FinishFault;
use crate::hir::{Binding, Expr, Label, LifetimeRef, Pat, TypeRef};
use crate::ids::{
    BindingId, BlockId, ExprId, LabelId, LifetimeRefId, MacroCallId, PatId, TypeRefId,
};
use crate::link::Link;
use crate::name::HygieneId;
use crate::nodes::Nodes;
use crate::source::{ExpressionStoreDiagnostics, Source};
use crate::store::{reads, ExprOrPatId, ExpressionStore};
use std::fmt;
use std::sync::OnceLock;

/// Nodes and roots that aren't tested yet. A node is added once, and stays as it is.
///
/// ```
/// use hir_expr_store::hir::{Expr, Path};
/// use hir_expr_store::{ExpressionStoreBuilder, FinishFault, HirError};
///
/// let mut builder = ExpressionStoreBuilder::new();
/// let x = builder.alloc_expr(Expr::Path(Path::from_name("x".into())));
/// builder.push_root(x);
/// builder.push_root(x);
/// let refused = builder.finish().unwrap_err();
/// assert_eq!(refused.error, HirError::Store(FinishFault::RootRepeated(1)));
/// assert_eq!(refused.builder.exprs().len(), 1);
/// ```
#[derive(Clone, PartialEq, Eq, Debug, Default)]
pub struct ExpressionStoreBuilder {
    pub(crate) nodes: Nodes,
}

/// A builder that was refused, as it was, and why.
#[derive(Clone, PartialEq, Eq, Debug)]
pub struct Refused {
    /// Why it was refused.
    pub error: HirError,
    /// The builder.
    pub builder: ExpressionStoreBuilder,
}

impl fmt::Display for Refused {
    fn fmt(&self, f: &mut fmt::Formatter<'_>) -> fmt::Result {
        fmt::Display::fmt(&self.error, f)
    }
}

impl std::error::Error for Refused {}

/// Why it was refused.
impl From<Box<Refused>> for HirError {
    fn from(refused: Box<Refused>) -> HirError {
        refused.error
    }
}

fn fault(text: &str) -> HirError {
    match FinishFault::from_text(text) {
        Some(fault) => HirError::Store(fault),
        None => HirError::of_refusal(text),
    }
}

impl ExpressionStoreBuilder {
    /// An empty builder.
    pub fn new() -> ExpressionStoreBuilder {
        ExpressionStoreBuilder::default()
    }

    reads!();

    /// Adds an expression, and returns its id.
    ///
    /// # Panics
    ///
    /// Where there are 2^32 - 1 already. So do the other calls that add a node.
    pub fn alloc_expr(&mut self, expr: Expr) -> ExprId {
        self.nodes.exprs.alloc(expr)
    }

    /// Adds a pattern, and returns its id.
    pub fn alloc_pat(&mut self, pat: Pat) -> PatId {
        self.nodes.pats.alloc(pat)
    }

    /// Adds a binding, and returns its id.
    pub fn alloc_binding(&mut self, binding: Binding) -> BindingId {
        self.nodes.bindings.alloc(binding)
    }

    /// Adds a label, and returns its id.
    pub fn alloc_label(&mut self, label: Label) -> LabelId {
        self.nodes.labels.alloc(label)
    }

    /// Adds a type, and returns its id.
    pub fn alloc_type(&mut self, type_ref: TypeRef) -> TypeRefId {
        self.nodes.types.alloc(type_ref)
    }

    /// Adds a lifetime, and returns its id.
    pub fn alloc_lifetime(&mut self, lifetime: LifetimeRef) -> LifetimeRefId {
        self.nodes.lifetimes.alloc(lifetime)
    }

    /// Begins an empty list of roots, where none was begun.
    pub fn begin_roots(&mut self) {
        self.nodes.has_roots = true;
    }

    /// Lists a root: the nodes that were added since the root before are its own.
    pub fn push_root(&mut self, expr: ExprId) {
        self.nodes.push_root(expr);
    }

    /// Sets the hygiene of the path that the expression or the pattern is.
    pub fn set_hygiene(&mut self, id: impl Into<ExprOrPatId>, hygiene: HygieneId) {
        self.nodes.hygiene.insert(id.into(), hygiene);
    }

    /// Says which closure, coroutine or anonymous constant owns a binding.
    pub fn set_binding_owner(&mut self, binding: BindingId, owner: ExprId) {
        self.nodes.binding_owners.insert(binding, owner);
    }

    /// Lists a block that may hold items, after the others.
    pub fn add_block_scope(&mut self, block: BlockId) {
        self.nodes.block_scopes.push(block);
    }

    /// Tests all nodes and roots once, by the proved `finish`: it accepts exactly the well-formed forests, and refuses any other builder by
    /// its first fault. The nodes are sent once, to the session that the store then has.
    pub fn finish(self) -> std::result::Result<ExpressionStore, Box<Refused>> {
        match self.open() {
            Ok(link) => {
                let mut nodes = self.nodes;
                nodes.forget_entries_without_nodes();
                Ok(ExpressionStore {
                    nodes,
                    link,
                    scope_counts: OnceLock::new(),
                })
            }
            Err(error) => Err(Box::new(Refused {
                error,
                builder: self,
            })),
        }
    }

    fn open(&self) -> Result<Link> {
        Link::open(&self.nodes, fault)
    }
}

macro_rules! maps {
    ($($(#[$meta:meta])* $name:ident: $field:ident($key:ident: $key_type:ty, $value:ident: $value_type:ty);)*) => {
        /// The entries of the source map. Of two for one key the later counts.
        impl ExpressionStoreBuilder {
            $(
                $(#[$meta])*
                pub fn $name(&mut self, $key: $key_type, $value: $value_type) {
                    self.nodes.sources.$field.insert($key.into(), $value.into());
                }
            )*

            /// One more pattern of a binding.
            pub fn add_definition(&mut self, binding: BindingId, pat: PatId) {
                self.nodes.sources.definitions.push((binding, pat));
            }

            /// A diagnostic, after the others.
            pub fn push_diagnostic(&mut self, diagnostic: ExpressionStoreDiagnostics) {
                self.nodes.sources.diagnostics.push(diagnostic);
            }
        }
    };
}

maps! {
    /// What the source of an expression became.
    map_expr: exprs(source: Source, node: impl Into<ExprOrPatId>);
    /// Where an expression comes from.
    map_expr_back: exprs_back(expr: ExprId, source: Source);
    /// What the source of a pattern became.
    map_pat: pats(source: Source, node: impl Into<ExprOrPatId>);
    /// Where a pattern comes from.
    map_pat_back: pats_back(pat: PatId, source: Source);
    /// What the source of a label became.
    map_label: labels(source: Source, label: LabelId);
    /// Where a label comes from.
    map_label_back: labels_back(label: LabelId, source: Source);
    /// What the source of a type became.
    map_type: types(source: Source, type_ref: TypeRefId);
    /// Where a type comes from.
    map_type_back: types_back(type_ref: TypeRefId, source: Source);
    /// What the source of a lifetime became.
    map_lifetime: lifetimes(source: Source, lifetime: LifetimeRefId);
    /// Where a lifetime comes from.
    map_lifetime_back: lifetimes_back(lifetime: LifetimeRefId, source: Source);
    /// Where the field comes from that has this expression as its value.
    map_field_back: fields_back(value: ExprId, source: Source);
    /// Where the field comes from that has this pattern.
    map_pat_field_back: pat_fields_back(pat: PatId, source: Source);
    /// What a macro call expanded to.
    add_expansion: expansions(source: Source, call: MacroCallId);
}
