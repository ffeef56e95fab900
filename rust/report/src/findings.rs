//! What the store says of a function.

use crate::functions::Function;
use crate::lower::{tables, BindingSource, Lowered, Sources};
use crate::span::{Place, Span};
use hir_expr_store::{
    Answers, Batch, BindingId, Edition, ExprOrPatId, HirError, HygieneId, Name, Question,
};
use std::collections::{HashMap, HashSet};

/// A name that is used, and what it means.
pub struct Meaning {
    /// The name.
    pub name: Name,
    /// Its path.
    pub path: ExprOrPatId,
    /// Where it is written.
    pub span: Span,
    /// The variable; `None` where it is none.
    pub binding: Option<BindingId>,
}

/// A closure, and what it captures.
pub struct Closure {
    /// What is written at its front.
    pub marks: Vec<Span>,
    /// The variables that it captures, in the order of their first use.
    pub captures: Vec<BindingId>,
}

/// A `break` or `continue`, and the loop or block that it leaves or goes on with.
pub struct Jump {
    /// Whether it is a `continue`.
    pub is_continue: bool,
    /// Where it is written.
    pub marks: Vec<Span>,
    /// The number of what it leaves among the loops; `None` where there is none.
    pub target: Option<usize>,
}

/// Whether something uses a binding.
#[derive(Clone, Copy, PartialEq, Eq)]
pub enum Usage {
    /// A path means it.
    Used,
    /// No path means it, and a macro call has its name.
    PerhapsInMacro,
    /// Nothing does.
    Unused,
}

/// What the store says of a function.
pub struct Findings {
    /// The function's name, with what it is in.
    pub name: String,
    /// Where its name stands.
    pub place: Place,
    /// From its first word to the end of its body.
    pub span: Span,
    /// The body as text.
    pub text: String,
    /// How many expressions, patterns, bindings and types its body has.
    pub nodes: usize,
    /// What its nodes were written as.
    pub sources: Sources,
    /// Whether something uses each binding.
    pub usages: HashMap<BindingId, Usage>,
    /// The paths of one name that are reached, and what they resolve to.
    pub meanings: Vec<Meaning>,
    /// The closures.
    pub closures: Vec<Closure>,
    /// The jumps.
    pub jumps: Vec<Jump>,
    /// Names that no scope has, since their path isn't reached.
    pub unreached: Vec<Meaning>,
}

/// Whether each binding is used.
fn usages(sources: &Sources, meanings: &[Meaning]) -> HashMap<BindingId, Usage> {
    let used: HashSet<BindingId> = meanings.iter().filter_map(|it| it.binding).collect();
    let in_macros: HashSet<&Name> = sources.in_macros.iter().map(|(name, _)| name).collect();
    let usage = |binding: &BindingSource| {
        if used.contains(&binding.id) {
            Usage::Used
        } else if in_macros.contains(&binding.name) {
            Usage::PerhapsInMacro
        } else {
            Usage::Unused
        }
    };
    let bindings = sources.bindings.iter();
    bindings
        .map(|binding| (binding.id, usage(binding)))
        .collect()
}

/// The names that are used, with what each resolves to, and those of them that aren't reached.
fn meanings(
    sources: &Sources,
    answers: &Answers,
    questions: &[Question<Option<BindingId>>],
) -> Result<(Vec<Meaning>, Vec<Meaning>), HirError> {
    let mut reached = Vec::new();
    let mut unreached = Vec::new();
    for (it, question) in sources.uses.iter().zip(questions) {
        let meaning = |binding| Meaning {
            name: it.name.clone(),
            path: it.path,
            span: it.span,
            binding,
        };
        match answers.get(*question) {
            Ok(binding) => reached.push(meaning(binding)),
            Err(HirError::Unreached) => unreached.push(meaning(None)),
            Err(error) => return Err(error),
        }
    }
    Ok((reached, unreached))
}

fn closures(
    sources: &Sources,
    answers: &Answers,
    questions: &[Question<Vec<BindingId>>],
) -> Result<Vec<Closure>, HirError> {
    let mut closures = Vec::new();
    for (closure, question) in sources.closures.iter().zip(questions) {
        match answers.get(*question) {
            Ok(captures) => closures.push(Closure {
                marks: closure.marks.clone(),
                captures,
            }),
            // One that isn't reached, as in the length of an array type.
            Err(HirError::NotAClosure) => {}
            Err(error) => return Err(error),
        }
    }
    closures.sort_by_key(|closure| closure.marks.first().copied());
    Ok(closures)
}

/// Asks the store about a function, all at once.
pub fn ask(function: &Function<'_>, lowered: Lowered) -> Result<Findings, HirError> {
    let Lowered { body, sources } = lowered;
    let tables = tables(&function.signature.ident.to_string());
    let mut batch = Batch::of_body(&body).with_tables(&tables);
    let text = batch.print_body(body.def(), Edition::Edition2021);
    let uses = sources.uses.iter();
    let resolved: Vec<_> = uses
        .map(|it| batch.resolve(it.at, &it.name, HygieneId::ROOT))
        .collect();
    let captures: Vec<_> = sources
        .closures
        .iter()
        .map(|it| batch.captures(it.expr))
        .collect();
    let targets: Vec<_> = sources
        .jumps
        .iter()
        .map(|it| batch.jump_target(it.expr))
        .collect();
    let answers = batch.ask()?;
    let (meanings, unreached) = meanings(&sources, &answers, &resolved)?;
    let closures = closures(&sources, &answers, &captures)?;
    let mut jumps = Vec::new();
    for (jump, question) in sources.jumps.iter().zip(targets) {
        let target = answers.get(question)?;
        jumps.push(Jump {
            is_continue: jump.is_continue,
            marks: jump.marks.clone(),
            target: sources.loops.iter().position(|it| Some(it.expr) == target),
        });
    }
    let nodes = body.exprs().len() + body.pats().len() + body.bindings().len() + body.types().len();
    Ok(Findings {
        name: function.name.clone(),
        place: function.place,
        span: function.span(),
        text: answers.get(text)?,
        nodes,
        usages: usages(&sources, &meanings),
        meanings,
        closures,
        jumps,
        unreached,
        sources,
    })
}

impl Findings {
    /// A binding.
    pub fn binding(&self, id: BindingId) -> Option<&BindingSource> {
        self.sources.binding(id)
    }

    /// The bindings of the source with this usage, but for `self` and those whose name begins with `_`.
    pub fn with_usage(&self, usage: Usage) -> impl Iterator<Item = &BindingSource> {
        self.sources.bindings.iter().filter(move |binding| {
            self.usages.get(&binding.id) == Some(&usage)
                && !binding.spans.is_empty()
                && binding.name.as_str() != "self"
                && !binding.name.as_str().starts_with('_')
        })
    }

    /// The paths of one name that mean no variable.
    pub fn not_local(&self) -> impl Iterator<Item = &Meaning> {
        self.meanings
            .iter()
            .filter(|meaning| meaning.binding.is_none())
    }
}
