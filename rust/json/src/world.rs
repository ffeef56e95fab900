//! What requests have made so far, and the answers to them.

use crate::request::{BodyParts, Question, Request};
use hir_expr_store::lines::Session;
use hir_expr_store::{make, Body, ExpressionStore, HirError, Param, Tables};
use serde::Serialize;
use serde_json::{json, Value};
use std::ops::Deref;

/// What questions are asked of.
enum Subject {
    Store(ExpressionStore),
    Body(Body),
}

impl Deref for Subject {
    type Target = ExpressionStore;

    fn deref(&self) -> &ExpressionStore {
        match self {
            Subject::Store(store) => store,
            Subject::Body(body) => body,
        }
    }
}

/// What requests have made so far.
#[derive(Default)]
pub struct World {
    subject: Option<Subject>,
    tables: Tables,
    session: Option<Session>,
}

/// An answer, or why there is none, as data.
fn outcome(result: Result<Value, HirError>) -> Value {
    match result {
        Ok(value) => json!({ "ok": value }),
        Err(error) => json!({ "error": error.to_string() }),
    }
}

fn value<T: Serialize>(result: Result<T, HirError>) -> Result<Value, HirError> {
    // The data of this package are lists, numbers and texts, which are values whatever is in them.
    result.map(|it| serde_json::to_value(it).unwrap_or(Value::Null))
}

impl World {
    /// The answer to a request.
    pub fn answer(&mut self, request: Request) -> Value {
        match self.take(request) {
            Ok(value) => value,
            Err(error) => json!({ "error": error.to_string() }),
        }
    }

    fn take(&mut self, request: Request) -> Result<Value, HirError> {
        if let Some(store) = request.store {
            self.subject = Some(Subject::Store(store));
        }
        if let Some(parts) = request.body {
            self.make_body(parts)?;
        }
        for (def, name) in request.names {
            self.tables.add_name(def, name.as_ref());
        }
        let lines = match request.lines {
            Some(lines) => Some(self.ask_lines(&lines)?),
            None => None,
        };
        let answers: Vec<Value> = request
            .ask
            .into_iter()
            .map(|it| outcome(self.ask(it)))
            .collect();
        Ok(match lines {
            Some(lines) => json!({ "answers": answers, "lines": lines }),
            None => json!({ "answers": answers }),
        })
    }

    /// Makes the store a body. Where that is refused the store stays.
    fn make_body(&mut self, parts: BodyParts) -> Result<(), HirError> {
        let Some(Subject::Store(store)) = self.subject.take() else {
            return Err(HirError::UnknownId);
        };
        let self_param = parts.self_param.map(Param::new);
        match Body::new(parts.def, store, make::params(&parts.params), self_param) {
            Ok(body) => {
                self.subject = Some(Subject::Body(body));
                Ok(())
            }
            Err(refused) => {
                self.subject = Some(Subject::Store(refused.store));
                Err(refused.error)
            }
        }
    }

    fn ask_lines(&mut self, lines: &str) -> Result<Vec<Value>, HirError> {
        let mut session = match self.session.take() {
            Some(session) => session,
            None => Session::open()?,
        };
        let answers = session.ask(lines)?;
        self.session = Some(session);
        let marked = answers.into_iter().map(|it| match it.is_refusal {
            true => json!({ "refused": it.text }),
            false => json!({ "ok": it.text }),
        });
        Ok(marked.collect())
    }

    /// The body that is asked.
    fn body(&self) -> Result<&Body, HirError> {
        match &self.subject {
            Some(Subject::Body(body)) => Ok(body),
            Some(Subject::Store(_)) | None => Err(HirError::UnknownId),
        }
    }

    fn ask(&self, question: Question) -> Result<Value, HirError> {
        let store = self.subject.as_ref().ok_or(HirError::UnknownId)?;
        let tables = &self.tables;
        match question {
            Question::Children(expr) => value(store.children(expr)),
            Question::ChildrenWithoutPats(expr) => value(store.children_without_pats(expr)),
            Question::VisitExpr(expr) => value(store.visit_expr(expr)),
            Question::VisitPat(pat) => value(store.visit_pat(pat)),
            Question::WalkPats(pat) => value(store.walk_pats(pat)),
            Question::BindingsInPat(pat) => value(store.bindings_in_pat(pat)),
            Question::ExprsInPat(pat) => value(store.exprs_in_pat(pat)),
            Question::RootForExpr(expr) => value(store.root_for_expr(expr)),
            Question::Parent(node) => value(store.parent(node)),
            Question::Ancestors(node) => value(store.ancestors(node)),
            Question::EnclosingClosure(expr) => value(store.enclosing_closure(expr)),
            Question::EnclosingLoop(expr) => value(store.enclosing_loop(expr)),
            Question::JumpTarget(expr) => value(store.jump_target(expr)),
            Question::Precedence(expr) => value(store.precedence(expr)),
            Question::Resolve {
                expr,
                name,
                hygiene,
            } => value(store.scopes()?.resolve(expr, &name, hygiene)),
            Question::BindingAt(expr) => value(store.scopes()?.binding_at(expr)),
            Question::Chain(expr) => value(store.scopes()?.chain(expr)),
            Question::Frames(expr) => value(store.scopes()?.frames(expr)),
            Question::VisibleNames(expr) => value(store.scopes()?.visible_names(expr)),
            Question::Captures(closure) => value(self.body()?.captures(closure)),
            Question::Usages => value(
                self.body()?
                    .usages()
                    .map(|it| it.iter().copied().collect::<Vec<_>>()),
            ),
            Question::Unresolved => value(self.body()?.usages().map(|it| it.unresolved().to_vec())),
            Question::Unused => value(self.body()?.usages().map(|it| it.unused().to_vec())),
            Question::UsagesOf(binding) => {
                value(self.body()?.usages().map(|it| it.of(binding).to_vec()))
            }
            Question::Rename { binding, name } => value(self.body()?.rename(binding, &name)),
            Question::Renamed {
                binding,
                name,
                edition,
            } => value(self.body()?.renamed(binding, &name, tables, edition)),
            Question::Print { edition } => value(self.body()?.print(tables, edition)),
            Question::PrintExpr { expr, edition } => value(store.print_expr(expr, tables, edition)),
            Question::PrintPat { pat, edition } => value(store.print_pat(pat, tables, edition)),
            Question::Store => value(Ok::<&ExpressionStore, HirError>(store)),
        }
    }
}
