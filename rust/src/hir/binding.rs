//! Bindings: the variables that patterns bring into scope; and labels of blocks and loops.

use crate::name::{HygieneId, Name};

/// A label of a block or a loop.
#[derive(Clone, PartialEq, Eq, Debug)]
#[cfg_attr(hir_serde, derive(serde::Serialize, serde::Deserialize))]
pub struct Label {
    /// Its name, with the `'` at its front.
    pub name: Name,
}

/// The words before the name of a binding.
#[derive(Clone, Copy, PartialEq, Eq, Debug, Default)]
#[cfg_attr(hir_serde, derive(serde::Serialize, serde::Deserialize))]
pub enum BindingAnnotation {
    /// None.
    #[default]
    Unannotated,
    /// `mut`
    Mutable,
    /// `ref`
    Ref,
    /// `ref mut`
    RefMut,
}

impl BindingAnnotation {
    /// The words that say whether the binding is mutable and whether it is a reference.
    pub const fn new(is_mutable: bool, is_ref: bool) -> BindingAnnotation {
        match (is_mutable, is_ref) {
            (true, true) => BindingAnnotation::RefMut,
            (false, true) => BindingAnnotation::Ref,
            (true, false) => BindingAnnotation::Mutable,
            (false, false) => BindingAnnotation::Unannotated,
        }
    }
}

/// What is wrong with a binding of a pattern.
#[derive(Clone, Copy, PartialEq, Eq, Debug)]
#[cfg_attr(hir_serde, derive(serde::Serialize, serde::Deserialize))]
pub enum BindingProblems {
    /// Its pattern binds the name more than once.
    BoundMoreThanOnce,
    /// The sides of an or-pattern bind it by different words.
    BoundInconsistently,
    /// Not all sides of an or-pattern bind it.
    NotBoundAcrossAll,
}

/// A variable that a pattern binds.
#[derive(Clone, PartialEq, Eq, Debug)]
#[cfg_attr(hir_serde, derive(serde::Serialize, serde::Deserialize))]
pub struct Binding {
    /// Its name.
    pub name: Name,
    /// The words before its name.
    #[cfg_attr(hir_serde, serde(default))]
    pub mode: BindingAnnotation,
    /// What is wrong with it, if anything.
    pub problems: Option<BindingProblems>,
    /// The macro expansion, if any, that wrote its name.
    #[cfg_attr(hir_serde, serde(default))]
    pub hygiene: HygieneId,
}

impl Binding {
    /// A binding of source text with this name, and nothing else.
    pub fn new(name: Name) -> Binding {
        Binding {
            name,
            mode: BindingAnnotation::Unannotated,
            problems: None,
            hygiene: HygieneId::ROOT,
        }
    }
}
