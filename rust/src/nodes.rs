//! The nodes and roots of a builder and of a store, each kept once, and the lines that make them.

use crate::arena::Arena;
use crate::hir::{Binding, Expr, Label, LifetimeRef, Pat, TypeRef};
use crate::ids::{BindingId, BlockId, ExprId, Id, LabelId, LifetimeRefId, PatId, TypeRefId};
use crate::name::HygieneId;
use crate::notation::{Line, Notation};
use crate::source::Sources;
use crate::store::ExprOrPatId;
use std::collections::BTreeMap;

/// How many nodes there were when a root was listed.
#[derive(Clone, Copy, PartialEq, Eq, Debug)]
#[cfg_attr(hir_serde, derive(serde::Serialize, serde::Deserialize))]
pub(crate) struct Ends {
    exprs: usize,
    pats: usize,
    bindings: usize,
}

/// The nodes and roots of a builder and of a store.
#[derive(Clone, PartialEq, Eq, Debug, Default)]
#[cfg_attr(hir_serde, derive(serde::Serialize, serde::Deserialize))]
#[cfg_attr(hir_serde, serde(default, deny_unknown_fields))]
pub(crate) struct Nodes {
    pub exprs: Arena<ExprId, Expr>,
    pub pats: Arena<PatId, Pat>,
    pub bindings: Arena<BindingId, Binding>,
    pub labels: Arena<LabelId, Label>,
    pub types: Arena<TypeRefId, TypeRef>,
    pub lifetimes: Arena<LifetimeRefId, LifetimeRef>,
    /// Whether a list of roots was begun.
    pub has_roots: bool,
    pub roots: Vec<ExprId>,
    /// For each root how many nodes there were when it was listed.
    pub ends: Vec<Ends>,
    #[cfg_attr(hir_serde, serde(with = "crate::serde::pairs"))]
    pub binding_owners: BTreeMap<BindingId, ExprId>,
    #[cfg_attr(hir_serde, serde(with = "crate::serde::pairs"))]
    pub hygiene: BTreeMap<ExprOrPatId, HygieneId>,
    pub block_scopes: Vec<BlockId>,
    pub sources: Sources,
}

/// A line for each node.
fn write_nodes<T: Notation>(word: &str, nodes: &[T], line: &mut Line) {
    for node in nodes {
        line.word(word);
        node.write(line);
        line.next_line();
    }
}

/// The lines of the nodes of an arena from `from` up to `to`, and from there on at the next call.
fn write_up_to<I: Id, T: Notation>(
    word: &str,
    arena: &Arena<I, T>,
    from: &mut usize,
    to: usize,
    line: &mut Line,
) {
    let to = to.min(arena.len()).max(*from);
    write_nodes(word, &arena.as_slice()[*from..to], line);
    *from = to;
}

impl Nodes {
    pub(crate) fn push_root(&mut self, expr: ExprId) {
        self.has_roots = true;
        self.roots.push(expr);
        self.ends.push(self.sizes());
    }

    /// Gives roots without ends those of all nodes, so that they may be left out of data; an error where there are ends of other roots.
    #[cfg(hir_serde)]
    pub(crate) fn mend(&mut self) -> Result<(), &'static str> {
        self.has_roots |= !self.roots.is_empty();
        if self.ends.is_empty() {
            self.ends = vec![self.sizes(); self.roots.len()];
        }
        if self.ends.len() == self.roots.len() {
            Ok(())
        } else {
            Err("there are as many ends as roots, or none")
        }
    }

    fn sizes(&self) -> Ends {
        Ends {
            exprs: self.exprs.len(),
            pats: self.pats.len(),
            bindings: self.bindings.len(),
        }
    }

    /// Whether there are nodes that only a body, and no signature's types, may have.
    fn has_nodes(&self) -> bool {
        !(self.exprs.is_empty()
            && self.pats.is_empty()
            && self.bindings.is_empty()
            && self.labels.is_empty())
    }

    /// Forgets what an accepted store without nodes doesn't keep.
    pub(crate) fn forget_entries_without_nodes(&mut self) {
        if !self.has_nodes() {
            self.binding_owners.clear();
            self.hygiene.clear();
            self.block_scopes.clear();
        }
    }

    /// Writes the lines of the nodes and roots. The ends of a root are those of the arenas where its line comes.
    fn write_tree(&self, line: &mut Line) {
        write_nodes("label", self.labels.as_slice(), line);
        write_nodes("type", self.types.as_slice(), line);
        write_nodes("lifetime", self.lifetimes.as_slice(), line);
        if self.has_roots {
            line.keyword("roots");
            line.next_line();
        }
        let mut from = Ends {
            exprs: 0,
            pats: 0,
            bindings: 0,
        };
        let last = self.sizes();
        for (root, ends) in self
            .roots
            .iter()
            .map(Some)
            .zip(&self.ends)
            .chain([(None, &last)])
        {
            write_up_to("expr", &self.exprs, &mut from.exprs, ends.exprs, line);
            write_up_to("pat", &self.pats, &mut from.pats, ends.pats, line);
            write_up_to(
                "bind",
                &self.bindings,
                &mut from.bindings,
                ends.bindings,
                line,
            );
            if let Some(root) = root {
                line.keyword("root");
                line.id(*root);
                line.next_line();
            }
        }
    }

    /// Writes the lines that make all this.
    pub(crate) fn write(&self, line: &mut Line) {
        self.write_tree(line);
        for (id, hygiene) in &self.hygiene {
            match id {
                ExprOrPatId::ExprId(expr) => {
                    line.keyword("hygiene");
                    line.id(*expr);
                }
                ExprOrPatId::PatId(pat) => {
                    line.keyword("pat-hygiene");
                    line.id(*pat);
                }
            }
            hygiene.write(line);
            line.next_line();
        }
        for (binding, owner) in &self.binding_owners {
            line.keyword("owner");
            line.id(*binding);
            line.id(*owner);
            line.next_line();
        }
        for block in &self.block_scopes {
            line.keyword("block-scope");
            line.id(*block);
            line.next_line();
        }
        self.sources.write(line);
    }

    /// The lines that make all this.
    pub(crate) fn to_lines(&self) -> String {
        let mut line = Line::new();
        self.write(&mut line);
        line.into_string()
    }
}
