//! A variable gets another name where the proved store says that every name resolves afterwards to what it resolved to before.

use crate::constants::around_constants;
use crate::edits::{Edit, Lines};
use crate::functions::{functions, Function};
use crate::lower::{lower, Lowered, Sources, Use};
use crate::span::{Place, Span};
use hir_expr_store::{Batch, BindingId, ExprOrPatId, HirError, Name, RenameFault};
use std::cell::RefCell;
use std::collections::HashMap;
use std::error::Error;
use std::fmt;
use std::rc::Rc;

/// What a variable is to be named.
pub struct NewName {
    /// As it is written, with the `r#` of a raw name.
    text: String,
    name: Name,
}

impl NewName {
    /// The name of this text, where a variable may be named so.
    pub fn of(text: &str) -> Result<NewName, String> {
        match syn::parse_str::<syn::Ident>(text) {
            Ok(_) => Ok(NewName {
                text: String::from(text),
                name: Name::new(text.strip_prefix("r#").unwrap_or(text)),
            }),
            Err(_) => Err(format!("{text} is no name of a variable")),
        }
    }

    /// Whether it begins as names of items do.
    pub fn begins_upper(&self) -> bool {
        self.name.as_str().starts_with(char::is_uppercase)
    }
}

/// Why nothing is asked of the store.
pub enum Refused {
    /// No variable is written or used at the place.
    NoVariable,
    /// The name at the place resolves to no variable.
    Unresolved(Name),
}

/// Why a variable may not have a name.
#[derive(Clone, Copy)]
pub enum Reason {
    /// The store's reason.
    Fault(RenameFault),
    /// A name in a constant that the variable is around: the store's scopes, as rust-analyzer's, have no local variables there, and rustc
    /// finds the variable and refuses it.
    InConstant,
}

/// Why a variable may not have the name.
pub struct Conflict {
    /// The reason.
    pub reason: Reason,
    /// The name that the variable has, and where it is written.
    variable: (Name, Option<Place>),
    /// The use that would resolve to something else.
    pub usage: Option<Place>,
    /// Where the other variable is written.
    pub other: Option<Place>,
}

/// A place, or that lowering made what is meant.
fn written(place: Option<Place>) -> String {
    place.map_or_else(|| String::from("nowhere"), |place| place.to_string())
}

impl fmt::Display for Conflict {
    fn fmt(&self, f: &mut fmt::Formatter<'_>) -> fmt::Result {
        let (name, place) = &self.variable;
        let variable = format!("{name} of {}", written(*place));
        let (usage, other) = (written(self.usage), written(self.other));
        let fault = match self.reason {
            Reason::Fault(fault) => fault,
            Reason::InConstant => {
                return write!(
                    f,
                    "the name at {usage} is in a constant, where {variable} may not be used"
                )
            }
        };
        match fault {
            RenameFault::NotBound => write!(f, "{variable} is in no scope"),
            RenameFault::IsSelf => write!(f, "self has no other name"),
            RenameFault::SameFrame { .. } => write!(
                f,
                "{variable} is bound together with the variable of {other}, which has that name"
            ),
            RenameFault::Hidden { .. } => write!(
                f,
                "the use of {variable} at {usage} would resolve to the variable of {other}"
            ),
            RenameFault::Captures { was: Some(_), .. } => write!(
                f,
                "the name at {usage} resolves to the variable of {other}, and would resolve to {variable}"
            ),
            RenameFault::Captures { was: None, .. } => write!(
                f,
                "the name at {usage} resolves to no variable, and would resolve to {variable}"
            ),
        }
    }
}

impl fmt::Display for Refused {
    fn fmt(&self, f: &mut fmt::Formatter<'_>) -> fmt::Result {
        match self {
            Refused::NoVariable => write!(f, "no variable is written or used here"),
            Refused::Unresolved(name) => write!(f, "{name} resolves to no variable"),
        }
    }
}

/// What a rename changes.
pub struct Renamed {
    /// Why the variable may not have the name, if it may not. The edits are then those that the rename would have made.
    pub conflict: Option<Conflict>,
    /// The changes of the source.
    pub edits: Vec<Edit>,
    /// Names in macro calls of the function that are the old or the new one: what they resolve to isn't seen.
    pub in_macros: Vec<(Name, Place)>,
    /// Paths of the new name in items of the function.
    pub in_items: Vec<Place>,
    /// What syn doesn't know in the function.
    pub unknown: Vec<Place>,
}

/// The functions of a file, by their places.
pub struct Renamer<'a> {
    lines: Lines<'a>,
    functions: Vec<(Span, Function<'a>)>,
    /// The function that was lowered last, by its number: the next rename is often in the same one.
    last: RefCell<Option<(usize, Rc<Lowered>)>>,
}

/// A function, and the variable of it that is written or used at a place.
struct Found {
    lowered: Rc<Lowered>,
    binding: BindingId,
}

fn is_in(span: Span, place: Place) -> bool {
    span.start <= place && place < span.end
}

/// Where a path of one name is written.
fn span_of(sources: &Sources, path: ExprOrPatId) -> Option<Span> {
    let found = sources.uses.iter().find(|it| it.path == path);
    found.map(|it| it.span)
}

/// Where a binding is written first.
fn place_of(sources: &Sources, id: BindingId) -> Option<Place> {
    Some(sources.binding(id)?.spans.first()?.start)
}

impl<'a> Renamer<'a> {
    /// The functions of a file that was parsed from a source.
    pub fn new(source: &'a str, file: &'a syn::File) -> Renamer<'a> {
        let functions = functions(file);
        Renamer {
            lines: Lines::of(source),
            functions: functions.into_iter().map(|it| (it.span(), it)).collect(),
            last: RefCell::new(None),
        }
    }

    /// A function's body.
    fn lowered(
        &self,
        number: usize,
        function: &Function<'_>,
    ) -> Result<Rc<Lowered>, Box<dyn Error>> {
        let mut last = self.last.borrow_mut();
        if let Some((_, lowered)) = last.as_ref().filter(|(it, _)| *it == number) {
            return Ok(Rc::clone(lowered));
        }
        let lowered = Rc::new(lower(function.signature, function.block)?);
        *last = Some((number, Rc::clone(&lowered)));
        Ok(lowered)
    }

    /// The lines of the source.
    pub fn lines(&self) -> &Lines<'a> {
        &self.lines
    }

    /// The variable that is written or used at a place.
    fn find(&self, place: Place) -> Result<Result<Found, Refused>, Box<dyn Error>> {
        let functions = self.functions.iter().enumerate();
        for (number, (_, function)) in functions.filter(|(_, (span, _))| is_in(*span, place)) {
            let lowered = self.lowered(number, function)?;
            let sources = &lowered.sources;
            let mut bindings = sources.bindings.iter();
            let written = bindings.find(|it| it.spans.iter().any(|span| is_in(*span, place)));
            if let Some(binding) = written.map(|it| it.id) {
                return Ok(Ok(Found { lowered, binding }));
            }
            let Some(used) = sources.uses.iter().find(|it| is_in(it.span, place)) else {
                continue;
            };
            let usages = lowered.body.usages()?;
            let usage = usages.iter().find(|it| it.path == used.path);
            return Ok(match usage.and_then(|it| it.binding) {
                Some(binding) => Ok(Found { lowered, binding }),
                None => Err(Refused::Unresolved(used.name.clone())),
            });
        }
        Ok(Err(Refused::NoVariable))
    }

    /// What changes where the variable that is written or used at a place gets another name.
    pub fn rename(
        &self,
        place: Place,
        new: &NewName,
    ) -> Result<Result<Renamed, Refused>, Box<dyn Error>> {
        let found = match self.find(place)? {
            Ok(found) => found,
            Err(refused) => return Ok(Err(refused)),
        };
        let Found { lowered, binding } = found;
        let sources = &lowered.sources;
        let mut batch = Batch::of_body(&lowered.body);
        let renamed = batch.rename(binding, &new.name);
        let uses = batch.usages_of(binding);
        let answers = batch.ask()?;
        let (uses, conflict) = match answers.get(renamed) {
            Ok(uses) => (uses, in_constant(&lowered, binding, &new.name)?),
            Err(HirError::Rename(fault)) => {
                let conflict = conflict(sources, fault, binding);
                (answers.get(uses)?, Some(conflict))
            }
            Err(error) => return Err(error.into()),
        };
        let old = lowered.body[binding].name.clone();
        let is_meant = |name: &Name| {
            let text = name.as_str();
            let text = text.strip_prefix("r#").unwrap_or(text);
            text == old.as_str() || text == new.name.as_str()
        };
        let in_macros = sources.in_macros.iter().filter(|(name, _)| is_meant(name));
        let in_items = sources
            .in_items
            .iter()
            .filter(|(name, _)| *name == new.name);
        Ok(Ok(Renamed {
            conflict,
            in_items: in_items.map(|(_, span)| span.start).collect(),
            edits: self.edits(sources, binding, &uses, new)?,
            in_macros: in_macros
                .map(|(name, span)| (name.clone(), span.start))
                .collect(),
            unknown: sources.unknown.iter().map(|span| span.start).collect(),
        }))
    }

    /// The changes at each place where a binding and its uses are written.
    fn edits(
        &self,
        sources: &Sources,
        binding: BindingId,
        uses: &[ExprOrPatId],
        new: &NewName,
    ) -> Result<Vec<Edit>, Box<dyn Error>> {
        let mut spans = Vec::new();
        let binding = sources
            .binding(binding)
            .ok_or("a variable is written nowhere")?;
        spans.extend(&binding.spans);
        let written: HashMap<_, _> = sources.uses.iter().map(|it| (it.path, it.span)).collect();
        for path in uses {
            spans.push(*written.get(path).ok_or("a use is written nowhere")?);
        }
        let mut edits = Vec::new();
        for span in spans {
            if let Some(start) = sources.short_fields.get(&span.start) {
                let field = self.lines.text(span).ok_or("a name isn't in the file")?;
                edits.push(Edit {
                    span: Span {
                        start: *start,
                        end: *start,
                    },
                    text: format!("{field}: "),
                });
            }
            edits.push(Edit {
                span,
                text: new.text.clone(),
            });
        }
        edits.sort();
        Ok(edits)
    }
}

/// The name of a binding, and where it is written.
fn variable(sources: &Sources, id: BindingId) -> (Name, Option<Place>) {
    let name = sources
        .binding(id)
        .map_or_else(|| Name::new(""), |it| it.name.clone());
    (name, place_of(sources, id))
}

/// The first use of a name in a constant that a binding is around, where the use resolves to no variable.
fn in_constant(
    lowered: &Lowered,
    binding: BindingId,
    name: &Name,
) -> Result<Option<Conflict>, HirError> {
    let sources = &lowered.sources;
    let of_name = |it: &&Use| it.is_in_constant && it.name == *name;
    for found in around_constants(lowered, of_name)? {
        let mut entries = found
            .chains
            .iter()
            .flatten()
            .flat_map(|frame| &frame.entries);
        if entries.any(|entry| entry.binding == binding) {
            return Ok(Some(Conflict {
                reason: Reason::InConstant,
                variable: variable(sources, binding),
                usage: Some(found.usage.span.start),
                other: None,
            }));
        }
    }
    Ok(None)
}

/// A fault with its places.
fn conflict(sources: &Sources, fault: RenameFault, binding: BindingId) -> Conflict {
    let (usage, other) = match fault {
        RenameFault::NotBound | RenameFault::IsSelf => (None, None),
        RenameFault::SameFrame { other } => (None, Some(other)),
        RenameFault::Hidden { usage, by } => (Some(usage), Some(by)),
        RenameFault::Captures { usage, was } => (Some(usage), was),
    };
    Conflict {
        reason: Reason::Fault(fault),
        variable: variable(sources, binding),
        usage: usage
            .and_then(|path| span_of(sources, path))
            .map(|span| span.start),
        other: other.and_then(|id| place_of(sources, id)),
    }
}
