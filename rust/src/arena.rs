//! Arenas: lists of nodes that are named by ids.

use crate::ids::Id;
use std::marker::PhantomData;
use std::ops::Index;

/// A list of nodes. Each has the id of its place, and keeps it.
///
/// ```
/// use hir_expr_store::hir::Expr;
/// use hir_expr_store::{Arena, ExprId};
///
/// let mut arena: Arena<ExprId, Expr> = Arena::new();
/// let id = arena.alloc(Expr::Missing);
/// assert_eq!(arena[id], Expr::Missing);
/// assert_eq!(arena.get(ExprId::from_raw(1)), None);
/// ```
#[derive(Clone, PartialEq, Eq, Debug)]
#[cfg_attr(
    hir_serde,
    derive(serde::Serialize, serde::Deserialize),
    serde(transparent)
)]
pub struct Arena<I, T> {
    nodes: Vec<T>,
    #[cfg_attr(hir_serde, serde(skip))]
    ids: PhantomData<I>,
}

impl<I: Id, T> Arena<I, T> {
    /// An arena without nodes.
    pub const fn new() -> Arena<I, T> {
        Arena {
            nodes: Vec::new(),
            ids: PhantomData,
        }
    }

    /// Adds a node, and returns its id.
    ///
    /// # Panics
    ///
    /// Where the arena has 2^32 - 1 nodes, as many as ids can tell apart.
    pub fn alloc(&mut self, node: T) -> I {
        let number = u32::try_from(self.nodes.len()).unwrap_or(u32::MAX);
        assert!(number < u32::MAX, "the arena of {} is full", I::NAME);
        self.nodes.push(node);
        I::from_raw(number)
    }

    /// The number of nodes.
    pub fn len(&self) -> usize {
        self.nodes.len()
    }

    /// Whether there are no nodes.
    pub fn is_empty(&self) -> bool {
        self.nodes.is_empty()
    }

    /// The node with this id, where it exists.
    pub fn get(&self, id: I) -> Option<&T> {
        self.nodes.get(usize::try_from(id.into_raw()).ok()?)
    }

    /// The nodes with their ids, in the order of these.
    pub fn iter(&self) -> impl Iterator<Item = (I, &T)> + '_ {
        (0..).map(I::from_raw).zip(&self.nodes)
    }

    /// The nodes, in the order of their ids.
    pub fn as_slice(&self) -> &[T] {
        &self.nodes
    }

    /// The nodes, in the order of their ids.
    pub fn values(&self) -> std::slice::Iter<'_, T> {
        self.nodes.iter()
    }
}

impl<I: Id, T> Default for Arena<I, T> {
    fn default() -> Arena<I, T> {
        Arena::new()
    }
}

/// The node with this id, which has to exist.
impl<I: Id, T> Index<I> for Arena<I, T> {
    type Output = T;

    fn index(&self, id: I) -> &T {
        match self.get(id) {
            Some(node) => node,
            None => panic!("{id:?} isn't in the arena"),
        }
    }
}
