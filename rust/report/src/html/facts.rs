//! What the page's script reckons renames with: the scopes that the uses of a function see, and what each use resolves to there. The script
//! does with them what the definition of a rename says (`verdict.js`), without the store.

use super::json::{self, Json};
use crate::constants::around_constants;
use crate::findings::{Findings, Usage};
use crate::lower::{Lowered, Sources, Use};
use crate::span::Place;
use hir_expr_store::{Batch, BindingId, ExprOrPatId, Frame, HirError, Name, RenameFault};
use std::collections::{HashMap, HashSet};

/// A scope that binds something.
#[derive(Clone, PartialEq, Eq, Hash)]
struct Scope {
    /// The scope around it.
    parent: Option<usize>,
    /// Its bindings, in the order in which a name is looked for among them.
    bindings: Vec<BindingId>,
}

/// Scopes, each once, with those around it before it.
#[derive(Default)]
struct Scopes {
    scopes: Vec<Scope>,
    numbers: HashMap<Scope, usize>,
}

impl Scopes {
    /// The innermost scope of a chain; `None` where no scope of it binds anything.
    fn add(&mut self, chain: &[Frame]) -> Option<usize> {
        let mut parent = None;
        for frame in chain.iter().rev().filter(|frame| !frame.entries.is_empty()) {
            let scope = Scope {
                parent,
                bindings: frame.entries.iter().map(|entry| entry.binding).collect(),
            };
            let next = self.scopes.len();
            let number = *self.numbers.entry(scope.clone()).or_insert(next);
            if number == next {
                self.scopes.push(scope);
            }
            parent = Some(number);
        }
        parent
    }

    fn bindings(&self) -> HashSet<BindingId> {
        self.scopes
            .iter()
            .flat_map(|scope| scope.bindings.iter().copied())
            .collect()
    }
}

/// A use, in the order in which the store looks at them.
struct UseFact {
    /// Its number among those that are written.
    source: usize,
    /// What it resolves to.
    binding: Option<BindingId>,
    /// The innermost scope that it sees.
    scope: Option<usize>,
}

/// A name in a constant, which resolves to no variable.
struct ConstantFact {
    /// Its number among the uses.
    usage: usize,
    /// The scopes around the constant.
    scopes: Vec<usize>,
}

/// What the page knows of a function beside what is reported of it.
pub struct Facts {
    scopes: Scopes,
    uses: Vec<UseFact>,
    constants: Vec<ConstantFact>,
    /// The bindings that no scope has.
    unbound: HashSet<BindingId>,
    /// Of bindings that no use sees: the other binding of a name that is bound in one frame with it.
    beside: Vec<(BindingId, Name, BindingId)>,
}

impl Facts {
    /// Asks the store.
    pub fn of(lowered: &Lowered) -> Result<Facts, HirError> {
        let mut scopes = Scopes::default();
        let uses = uses(lowered, &mut scopes)?;
        let constants = constants(lowered, &uses, &mut scopes)?;
        let mut facts = Facts {
            scopes,
            uses,
            constants,
            unbound: HashSet::new(),
            beside: Vec::new(),
        };
        facts.add_unseen(lowered)?;
        Ok(facts)
    }

    /// Asks about the bindings that no use sees, for which there is no scope here: whether they are bound, and with what.
    fn add_unseen(&mut self, lowered: &Lowered) -> Result<(), HirError> {
        let seen = self.scopes.bindings();
        let is_unseen = |id: &BindingId| !seen.contains(id);
        let sources = &lowered.sources;
        let written = sources.bindings.iter().filter(|it| !it.spans.is_empty());
        let unseen: Vec<_> = written
            .filter(|it| is_unseen(&it.id) && it.name.as_str() != "self")
            .collect();
        let names: HashSet<&Name> = unseen.iter().map(|it| &it.name).collect();
        let mut batch = Batch::of_body(&lowered.body);
        let mut questions = Vec::new();
        for binding in &unseen {
            // A name that no source has: what it is refused for is no matter of the name.
            questions.push((
                binding.id,
                None,
                batch.rename(binding.id, &Name::new("<new>")),
            ));
            for name in &names {
                questions.push((binding.id, Some(*name), batch.rename(binding.id, name)));
            }
        }
        let answers = batch.ask()?;
        for (binding, name, question) in questions {
            match (answers.get(question), name) {
                (Err(HirError::Rename(RenameFault::NotBound)), _) => {
                    self.unbound.insert(binding);
                }
                (Err(HirError::Rename(RenameFault::SameFrame { other })), Some(name)) => {
                    self.beside.push((binding, name.clone(), other));
                }
                (Ok(_) | Err(HirError::Rename(_)), _) => {}
                (Err(error), _) => return Err(error),
            }
        }
        self.beside.sort();
        Ok(())
    }

    /// The numbers of the uses, by their paths: those on the page.
    pub fn numbers(&self, sources: &Sources) -> HashMap<ExprOrPatId, usize> {
        let paths = self.uses.iter().map(|it| sources.uses[it.source].path);
        paths.zip(0..).collect()
    }
}

/// The uses that are written, in the order in which the store looks at them.
fn uses(lowered: &Lowered, scopes: &mut Scopes) -> Result<Vec<UseFact>, HirError> {
    let written = lowered
        .sources
        .uses
        .iter()
        .zip(0..)
        .map(|(it, number)| (it.path, number));
    let written: HashMap<ExprOrPatId, usize> = written.collect();
    let mut batch = Batch::of_body(&lowered.body);
    let mut asked = Vec::new();
    for usage in &lowered.body.usages()? {
        if let Some(source) = written.get(&usage.path).copied() {
            asked.push((
                source,
                usage.binding,
                batch.frames(lowered.sources.uses[source].at),
            ));
        }
    }
    let answers = batch.ask()?;
    let mut uses = Vec::new();
    for (source, binding, frames) in asked {
        uses.push(UseFact {
            source,
            binding,
            scope: scopes.add(&answers.get(frames)?),
        });
    }
    Ok(uses)
}

/// The names in constants that resolve to no variable, in the order of the source.
fn constants(
    lowered: &Lowered,
    uses: &[UseFact],
    scopes: &mut Scopes,
) -> Result<Vec<ConstantFact>, HirError> {
    let sources = &lowered.sources.uses;
    let numbers: HashMap<ExprOrPatId, usize> = uses
        .iter()
        .map(|it| sources[it.source].path)
        .zip(0..)
        .collect();
    let mut constants = Vec::new();
    for found in around_constants(lowered, |it: &&Use| it.is_in_constant)? {
        let around = found.chains.iter().filter_map(|chain| scopes.add(chain));
        let mut around: Vec<usize> = around.collect();
        around.sort_unstable();
        around.dedup();
        if let Some(usage) = numbers
            .get(&found.usage.path)
            .copied()
            .filter(|_| !around.is_empty())
        {
            constants.push(ConstantFact {
                usage,
                scopes: around,
            });
        }
    }
    Ok(constants)
}

fn number(id: BindingId) -> Json {
    Json::Number(i64::from(id.into_raw()))
}

/// A number from 0, or -1 for none.
fn or_none(index: Option<usize>) -> Json {
    Json::Number(
        index
            .and_then(|index| i64::try_from(index).ok())
            .unwrap_or(-1),
    )
}

fn index(index: usize) -> Json {
    or_none(Some(index))
}

/// The line and the column of a place, both from 1; nothing for none.
fn place(place: Option<Place>) -> Vec<Json> {
    place.map_or_else(Vec::new, |it| vec![index(it.line), index(it.column + 1)])
}

/// `[name, line, column]`
fn named(name: &Name, at: Place) -> Json {
    let mut items = vec![Json::Text(name.as_str().into())];
    items.extend(place(Some(at)));
    Json::List(items)
}

/// What is said of a binding by a letter: a parameter, `self`, bound by nothing, perhaps used in a macro call.
fn kinds(found: &Findings, facts: &Facts, id: BindingId) -> String {
    let mut kinds = String::new();
    if let Some(binding) = found.sources.binding(id) {
        if binding.is_param {
            kinds.push('p');
        }
        if binding.name.as_str() == "self" {
            kinds.push('s');
        }
    }
    if facts.unbound.contains(&id) {
        kinds.push('n');
    }
    if found.usages.get(&id) == Some(&Usage::PerhapsInMacro) {
        kinds.push('m');
    }
    kinds
}

/// The facts of a function, as `verdict.js` and `page.js` read them:
///
/// - `name`
/// - `bindings`: `[name, kinds, line, column]` of each by its id; without a place where lowering made it
/// - `scopes`: `[parent, binding, ..]`, with -1 for no parent
/// - `uses`: `[name, binding, scope, line, column]`, in the order of the store, with -1 for no binding and no scope
/// - `constants`: `[use, scope, ..]`
/// - `beside`: `[binding, name, other]`
/// - `macros`, `items`: `[name, line, column]`; `unknown`: `[line, column]`
pub fn to_json(found: &Findings, facts: &Facts) -> Json {
    let sources = &found.sources;
    let bindings = sources.bindings.iter().map(|it| {
        let kinds = kinds(found, facts, it.id);
        let mut items = vec![Json::Text(it.name.as_str().into()), Json::Text(kinds)];
        items.extend(place(it.spans.first().map(|span| span.start)));
        Json::List(items)
    });
    let scopes = facts.scopes.scopes.iter().map(|scope| {
        let parent = or_none(scope.parent);
        Json::List(
            [parent]
                .into_iter()
                .chain(scope.bindings.iter().map(|id| number(*id)))
                .collect(),
        )
    });
    let uses = facts.uses.iter().map(|it| {
        let written = &sources.uses[it.source];
        let binding = it.binding.map_or(Json::Number(-1), number);
        let mut items = vec![
            Json::Text(written.name.as_str().into()),
            binding,
            or_none(it.scope),
        ];
        items.extend(place(Some(written.span.start)));
        Json::List(items)
    });
    let constants = facts.constants.iter().map(|it| {
        let scopes = it.scopes.iter().map(|scope| index(*scope));
        Json::List([index(it.usage)].into_iter().chain(scopes).collect())
    });
    let beside = facts.beside.iter().map(|(binding, name, other)| {
        Json::List(vec![
            number(*binding),
            Json::Text(name.as_str().into()),
            number(*other),
        ])
    });
    let macros = sources
        .in_macros
        .iter()
        .map(|(name, span)| named(name, span.start));
    let items = sources
        .in_items
        .iter()
        .map(|(name, span)| named(name, span.start));
    let unknown = sources
        .unknown
        .iter()
        .map(|span| Json::List(place(Some(span.start))));
    json::object([
        ("name", Json::Text(found.name.clone())),
        ("bindings", bindings.collect()),
        ("scopes", scopes.collect()),
        ("uses", uses.collect()),
        ("constants", constants.collect()),
        ("beside", beside.collect()),
        ("macros", macros.collect()),
        ("items", items.collect()),
        ("unknown", unknown.collect()),
    ])
}
