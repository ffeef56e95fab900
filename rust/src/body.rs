//! Bodies: a store, and the parameters that it is entered with.

use crate::batch::{Batch, Question};
use crate::def::DefWithBodyId;
use crate::error::{HirError, Result};
use crate::fault::BodyFault;
use crate::ids::{BindingId, ExprId, Id, PatId};
use crate::link::Tail;
use crate::notation::{Line, Notation};
use crate::query::Query;
use crate::source::Source;
use crate::store::ExpressionStore;
use crate::tables::{Edition, Tables};
use std::fmt;
use std::ops::Deref;

/// A parameter as the body has it, and as the user wrote it.
///
/// The two differ where a body copies its parameters into local variables, as that of an `async fn` does.
#[derive(Clone, Copy, PartialEq, Eq, Debug)]
#[cfg_attr(hir_serde, derive(serde::Serialize, serde::Deserialize))]
pub struct Param<Id> {
    /// The parameter itself: the id that the analysis of a body uses.
    pub formal: Id,
    /// What the user wrote: the id that an editor uses.
    pub user_written: Id,
}

impl<Id: Copy> Param<Id> {
    /// The parameter of this id, as the user wrote it.
    pub const fn new(id: Id) -> Param<Id> {
        Param {
            formal: id,
            user_written: id,
        }
    }
}

/// A body: the last root of its store is what it evaluates, and no parameter shares a node with it.
///
/// It derefs to its store, as that of rust-analyzer does, so each question on a store may be asked of a body.
///
/// ```
/// use hir_expr_store::hir::{Expr, Path};
/// use hir_expr_store::{Body, BodyFault, ExpressionStoreBuilder, FunctionId, HirError, Param, make};
///
/// # fn main() -> Result<(), HirError> {
/// let f = FunctionId::from_raw(0);
/// let mut builder = ExpressionStoreBuilder::new();
/// let x = make::bind(&mut builder, "x");
/// let root = builder.alloc_expr(Expr::Path(Path::from_name("x".into())));
/// builder.push_root(root);
/// let store = builder.finish()?;
///
/// let refused = Body::new(f, store, vec![Param::new(x), Param::new(x)], None).unwrap_err();
/// assert_eq!(refused.error, HirError::Body(BodyFault::ParamRepeated(1)));
/// let body = Body::new(f, refused.store, vec![Param::new(x)], None)?;
/// assert_eq!(body.root_expr(), root);
/// assert!(body.scopes()?.binding_at(root)?.is_some());
/// # Ok(())
/// # }
/// ```
#[derive(Debug)]
pub struct Body {
    def: DefWithBodyId,
    store: ExpressionStore,
    params: Vec<Param<PatId>>,
    self_param: Option<Param<BindingId>>,
    root: ExprId,
}

/// The parts of a body that was refused, and why.
#[derive(Debug)]
pub struct RefusedBody {
    /// Why it was refused.
    pub error: HirError,
    /// The store.
    pub store: ExpressionStore,
    /// The parameters.
    pub params: Vec<Param<PatId>>,
    /// The self parameter.
    pub self_param: Option<Param<BindingId>>,
}

impl fmt::Display for RefusedBody {
    fn fmt(&self, f: &mut fmt::Formatter<'_>) -> fmt::Result {
        fmt::Display::fmt(&self.error, f)
    }
}

impl std::error::Error for RefusedBody {}

/// Why it was refused.
impl From<Box<RefusedBody>> for HirError {
    fn from(refused: Box<RefusedBody>) -> HirError {
        refused.error
    }
}

fn fault(text: &str) -> HirError {
    match BodyFault::from_text(text) {
        Some(fault) => HirError::Body(fault),
        None => HirError::of_refusal(text),
    }
}

fn write_param<I: Id>(word: &str, param: Param<I>, line: &mut Line) {
    line.word(word);
    line.id(param.formal);
    line.id(param.user_written);
    line.next_line();
}

/// What makes the store that of a body of these parts.
fn tail_of(
    def: DefWithBodyId,
    params: &[Param<PatId>],
    self_param: Option<Param<BindingId>>,
    self_source: Option<Source>,
) -> Tail {
    let mut line = Line::new();
    for param in params {
        write_param("param", *param, &mut line);
    }
    if let Some(param) = self_param {
        write_param("self", param, &mut line);
    }
    if let Some(source) = self_source {
        line.keyword("self-source");
        source.write(&mut line);
        line.next_line();
    }
    line.keyword("body ");
    def.write(&mut line);
    line.next_line();
    Tail {
        lines: line.into_string(),
        optional: None,
    }
}

impl Body {
    /// The body of this definition, tested by the proved `Body::new`. The store stays in its session, which then has the body.
    pub fn new(
        def: impl Into<DefWithBodyId>,
        store: ExpressionStore,
        params: Vec<Param<PatId>>,
        self_param: Option<Param<BindingId>>,
    ) -> std::result::Result<Body, Box<RefusedBody>> {
        Body::with_self_source(def, store, params, self_param, None)
    }

    /// The same of a body whose `self` is written at this place.
    pub fn with_self_source(
        def: impl Into<DefWithBodyId>,
        mut store: ExpressionStore,
        params: Vec<Param<PatId>>,
        self_param: Option<Param<BindingId>>,
        self_source: Option<Source>,
    ) -> std::result::Result<Body, Box<RefusedBody>> {
        let def = def.into();
        let tail = tail_of(def, &params, self_param, self_source);
        let claimed = store.claim(tail, fault);
        let error = match (claimed, store.expr_roots().last().copied()) {
            (Ok(()), Some(root)) => {
                return Ok(Body {
                    def,
                    store,
                    params,
                    self_param,
                    root,
                });
            }
            (Ok(()), None) => HirError::Body(BodyFault::NoRoot),
            (Err(error), _) => error,
        };
        Err(Box::new(RefusedBody {
            error,
            store,
            params,
            self_param,
        }))
    }

    pub(crate) fn ask<T>(&self, query: &Query<T>) -> Result<T> {
        self.store.ask(query)
    }

    /// Whose body it is.
    pub const fn def(&self) -> DefWithBodyId {
        self.def
    }

    /// Its store.
    pub const fn store(&self) -> &ExpressionStore {
        &self.store
    }

    /// Its parameters.
    pub fn params(&self) -> &[Param<PatId>] {
        &self.params
    }

    /// Its self parameter.
    pub const fn self_param(&self) -> Option<Param<BindingId>> {
        self.self_param
    }

    /// What it evaluates: the last root.
    pub const fn root_expr(&self) -> ExprId {
        self.root
    }

    /// Whether the binding is the self parameter, as the body has it or as the user wrote it.
    pub fn is_any_self_param(&self, binding: BindingId) -> bool {
        self.self_param
            .is_some_and(|param| param.formal == binding || param.user_written == binding)
    }

    /// Where its `self` is written, where that is known.
    pub fn self_param_syntax(&self) -> Result<Option<Source>> {
        let write = |line: &mut Line| {
            line.begin();
            self.def.write(line);
        };
        self.ask(&Query::of(
            "self-syntax",
            write,
            crate::query::read_opt_value,
        ))
    }

    /// The body as text, with its head and its parameters.
    pub fn print(&self, tables: &Tables, edition: Edition) -> Result<String> {
        self.print_as(self.def, tables, edition)
    }

    /// The same with the head of another definition.
    pub fn print_as(
        &self,
        def: impl Into<DefWithBodyId>,
        tables: &Tables,
        edition: Edition,
    ) -> Result<String> {
        self.store
            .ask_with(tables, &print_body(self.def, def.into(), edition))
    }
}

fn print_body(def: DefWithBodyId, head: DefWithBodyId, edition: Edition) -> Query<String> {
    Query::print("print-body ", |line| {
        def.write(line);
        if head != def {
            line.keyword("as:");
            head.write(line);
        }
        line.word(edition.as_str());
    })
}

/// The store of the body.
impl Deref for Body {
    type Target = ExpressionStore;

    fn deref(&self) -> &ExpressionStore {
        &self.store
    }
}

/// The bodies are of one definition, and have the same parts.
impl PartialEq for Body {
    fn eq(&self, other: &Body) -> bool {
        self.def == other.def
            && self.store == other.store
            && self.params == other.params
            && self.self_param == other.self_param
    }
}

impl Eq for Body {}

/// The texts of a body.
impl Batch<'_> {
    /// The body of this definition as text, with its head and its parameters.
    pub fn print_body(
        &mut self,
        def: impl Into<DefWithBodyId>,
        edition: Edition,
    ) -> Question<String> {
        let def = def.into();
        self.push(&print_body(def, def, edition))
    }
}
