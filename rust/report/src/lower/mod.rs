//! Lowering: a parsed function becomes a body, and its names keep their places.

mod assignments;
mod blocks;
mod control;
mod exprs;
mod items;
mod lang;
mod literals;
mod macros;
mod paths;
mod pats;
mod types;
mod verbatim;

use crate::span::{Place, Span};
use hir_expr_store::hir::{Binding, BindingAnnotation, Expr, Label};
use hir_expr_store::{
    BindingId, Body, ExprId, ExprOrPatId, ExpressionStoreBuilder, FunctionId, HygieneId, LabelId,
    Name, Param,
};
use std::collections::HashMap;
use std::error::Error;
use std::mem;

pub use lang::tables;

/// Where a binding is written, as often as it is: a pattern may bind it in each of its alternatives.
pub struct BindingSource {
    /// The binding.
    pub id: BindingId,
    /// Its name.
    pub name: Name,
    /// Where it is written; nowhere, where lowering made it.
    pub spans: Vec<Span>,
    /// Whether it is of a parameter.
    pub is_param: bool,
}

/// A path of one name, which may mean a variable.
pub struct Use {
    /// The path: an expression, or a pattern on the left of an assignment.
    pub path: ExprOrPatId,
    /// The expression at which the name is looked for.
    pub at: ExprId,
    /// The name.
    pub name: Name,
    /// Where it is written.
    pub span: Span,
    /// Whether it is in a constant, as the length of an array: there no scope has the variables around it.
    pub is_in_constant: bool,
}

/// A closure, or a block that is one, as `async {}`.
pub struct ClosureSource {
    /// The closure.
    pub expr: ExprId,
    /// What is written at its front: the two bars, or `async`.
    pub marks: Vec<Span>,
}

/// A `break` or `continue` that is written.
pub struct JumpSource {
    /// The jump.
    pub expr: ExprId,
    /// Whether it is a `continue`.
    pub is_continue: bool,
    /// The word, and the label where it has one.
    pub marks: Vec<Span>,
}

/// A loop, or a block with a label.
pub struct LoopSource {
    /// The loop or block.
    pub expr: ExprId,
    /// The label where it has one, and the word of a loop.
    pub marks: Vec<Span>,
}

/// What the nodes of a body were written as.
#[derive(Default)]
pub struct Sources {
    /// Its bindings, by their ids.
    pub bindings: Vec<BindingSource>,
    /// Its paths of one name.
    pub uses: Vec<Use>,
    /// Its closures.
    pub closures: Vec<ClosureSource>,
    /// Its jumps.
    pub jumps: Vec<JumpSource>,
    /// Its loops, and its blocks with a label.
    pub loops: Vec<LoopSource>,
    /// The fields that are written as one name, as in `P { x }`, by the place of that name: where the field begins. The two differ in
    /// `P { ref x }`.
    pub short_fields: HashMap<Place, Place>,
    /// The identifiers in macro calls, which aren't expanded: a variable may be used there.
    pub in_macros: Vec<(Name, Span)>,
    /// The paths of one name in items of the body, which see none of its variables: a variable of that name may be in their way.
    pub in_items: Vec<(Name, Span)>,
    /// What syn didn't know, so that it is a missing node.
    pub unknown: Vec<Span>,
}

impl Sources {
    /// A binding.
    pub fn binding(&self, id: BindingId) -> Option<&BindingSource> {
        let at = usize::try_from(id.into_raw()).ok()?;
        self.bindings.get(at).filter(|it| it.id == id)
    }
}

/// A body, and what its nodes were written as.
pub struct Lowered {
    /// The body.
    pub body: Body,
    /// What its nodes were written as.
    pub sources: Sources,
}

/// A label that is in scope.
struct LabelInScope {
    name: String,
    id: LabelId,
}

/// What is lowered so far.
#[derive(Default)]
struct Lowering {
    builder: ExpressionStoreBuilder,
    sources: Sources,
    labels: Vec<LabelInScope>,
    blocks: u32,
    macro_defs: u32,
    made_names: u32,
    /// Whether bindings are of a parameter.
    is_param: bool,
    /// Whether it is a constant that is lowered.
    is_in_constant: bool,
}

/// The body of a function with these parameters.
pub fn lower(signature: &syn::Signature, block: &syn::Block) -> Result<Lowered, Box<dyn Error>> {
    let mut lowering = Lowering {
        is_param: true,
        ..Lowering::default()
    };
    let mut params = Vec::new();
    let mut self_param = None;
    for input in &signature.inputs {
        match input {
            syn::FnArg::Receiver(receiver) => {
                let is_mutable = receiver.mutability.is_some() && receiver.reference.is_none();
                let mode = BindingAnnotation::new(is_mutable, false);
                let span = Span::of(&receiver.self_token);
                self_param = Some(Param::new(lowering.binding("self", mode, Some(span))));
            }
            syn::FnArg::Typed(typed) => match &*typed.pat {
                // `self` with a type.
                syn::Pat::Ident(ident) if ident.ident == "self" => {
                    let mode = BindingAnnotation::new(ident.mutability.is_some(), false);
                    let span = Span::of(&ident.ident);
                    self_param = Some(Param::new(lowering.binding("self", mode, Some(span))));
                }
                pat => params.push(Param::new(lowering.pat_top(pat))),
            },
        }
    }
    lowering.is_param = false;
    let root = lowering.block(block, None);
    lowering.builder.push_root(root);
    let Lowering {
        builder, sources, ..
    } = lowering;
    let store = builder.finish()?;
    let body = Body::new(FunctionId::from_raw(lang::THIS), store, params, self_param)?;
    Ok(Lowered { body, sources })
}

impl Lowering {
    fn alloc(&mut self, expr: Expr) -> ExprId {
        self.builder.alloc_expr(expr)
    }

    /// A binding of this name, which is written here, or nowhere.
    fn binding(&mut self, name: &str, mode: BindingAnnotation, span: Option<Span>) -> BindingId {
        let name = Name::new(name);
        let id = self.builder.alloc_binding(Binding {
            name: name.clone(),
            mode,
            problems: None,
            hygiene: HygieneId::ROOT,
        });
        self.sources.bindings.push(BindingSource {
            id,
            name,
            spans: span.into_iter().collect(),
            is_param: self.is_param,
        });
        id
    }

    /// A name that no source has.
    fn made_name(&mut self, of: &str) -> Name {
        let number = self.made_names;
        self.made_names += 1;
        Name::new(format!("<{of} {number}>"))
    }

    /// What syn gives as tokens alone.
    fn unknown(&mut self, span: Span) -> ExprId {
        self.sources.unknown.push(span);
        self.alloc(Expr::Missing)
    }

    fn label(&mut self, label: Option<&syn::Label>) -> Option<LabelId> {
        let label = label?;
        let name = format!("'{}", label.name.ident);
        Some(self.builder.alloc_label(Label {
            name: Name::new(name),
        }))
    }

    /// Lowers what a label is in scope of.
    fn with_label<T>(
        &mut self,
        name: Option<&syn::Label>,
        id: Option<LabelId>,
        lower: impl FnOnce(&mut Lowering) -> T,
    ) -> T {
        let (Some(name), Some(id)) = (name, id) else {
            return lower(self);
        };
        self.labels.push(LabelInScope {
            name: name.name.ident.to_string(),
            id,
        });
        let lowered = lower(self);
        self.labels.pop();
        lowered
    }

    /// Lowers what sees none of the labels around it, as the body of a closure.
    fn without_labels<T>(&mut self, lower: impl FnOnce(&mut Lowering) -> T) -> T {
        let labels = mem::take(&mut self.labels);
        let lowered = lower(self);
        self.labels = labels;
        lowered
    }

    /// Lowers a constant: it sees none of the labels around it either.
    fn constant<T>(&mut self, lower: impl FnOnce(&mut Lowering) -> T) -> T {
        let is_in_constant = mem::replace(&mut self.is_in_constant, true);
        let lowered = self.without_labels(lower);
        self.is_in_constant = is_in_constant;
        lowered
    }

    /// Keeps where a loop, or a block with a label, is written.
    fn keep_loop(&mut self, expr: ExprId, label: Option<&syn::Label>, word: Option<Span>) {
        let label = label.map(|label| Span::of(&label.name));
        let marks = label.into_iter().chain(word).collect();
        self.sources.loops.push(LoopSource { expr, marks });
    }

    /// Keeps where a jump is written.
    fn keep_jump(
        &mut self,
        expr: ExprId,
        is_continue: bool,
        word: Span,
        label: Option<&syn::Lifetime>,
    ) {
        let label = label.map(Span::of);
        self.sources.jumps.push(JumpSource {
            expr,
            is_continue,
            marks: [word].into_iter().chain(label).collect(),
        });
    }

    /// The label that a jump names.
    fn label_in_scope(&self, lifetime: Option<&syn::Lifetime>) -> Option<LabelId> {
        let name = lifetime?.ident.to_string();
        let mut inner_first = self.labels.iter().rev();
        inner_first
            .find(|label| label.name == name)
            .map(|label| label.id)
    }
}
