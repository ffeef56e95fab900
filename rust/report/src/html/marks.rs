//! What is marked in the source: variables, the names that resolve to them, closures, and jumps with what they leave.

use super::facts::Facts;
use super::{escaped, Function};
use crate::findings::{Closure, Findings, Jump, Usage};
use crate::span::{Place, Span};
use hir_expr_store::BindingId;
use std::collections::{HashMap, HashSet};

/// A piece of the source that is marked, and the attributes of its element.
pub struct Mark {
    /// The piece: it ends in the line that it begins in. Without characters it is where a rename writes the name of a field.
    pub span: Span,
    /// The attributes.
    pub attributes: String,
}

/// The name of a binding on the page.
fn key(function: usize, id: BindingId) -> String {
    format!("{function}.{}", id.into_raw())
}

/// The attribute of a name that is also that of a field, which a rename writes before it.
fn field(function: usize, found: &Findings, name: Span) -> String {
    if found.sources.short_fields.contains_key(&name.start) {
        format!(" data-f=\"{function}.{}\"", name.start)
    } else {
        String::new()
    }
}

fn add_bindings(function: usize, found: &Findings, marks: &mut Vec<Mark>) {
    let unused: HashSet<BindingId> = found.with_usage(Usage::Unused).map(|it| it.id).collect();
    for binding in &found.sources.bindings {
        let is_unused = unused.contains(&binding.id);
        let class = if is_unused { "d unused" } else { "d" };
        let key = key(function, binding.id);
        for span in &binding.spans {
            marks.push(Mark {
                span: *span,
                attributes: format!(
                    "class=\"{class}\" data-b=\"{key}\"{}",
                    field(function, found, *span)
                ),
            });
        }
    }
}

fn add_uses(function: usize, found: &Findings, facts: &Facts, marks: &mut Vec<Mark>) {
    let numbers = facts.numbers(&found.sources);
    for meaning in &found.meanings {
        let class = if meaning.binding.is_some() { "u" } else { "o" };
        let attributes = match numbers.get(&meaning.path) {
            Some(number) => {
                let field = field(function, found, meaning.span);
                format!("class=\"{class}\" data-u=\"{function}.{number}\"{field}")
            }
            None => format!("class=\"{class}\""),
        };
        marks.push(Mark {
            span: meaning.span,
            attributes,
        });
    }
}

/// Where fields begin that are written as one name.
fn add_fields(function: usize, found: &Findings, marks: &mut Vec<Mark>) {
    for (name, start) in &found.sources.short_fields {
        marks.push(Mark {
            span: Span {
                start: *start,
                end: *start,
            },
            attributes: format!("class=\"f\" data-at=\"{function}.{name}\""),
        });
    }
}

/// The names of what a closure captures, as a text.
pub fn captured_names(found: &Findings, closure: &Closure) -> String {
    let captured = closure.captures.iter();
    let names: Vec<&str> = captured
        .filter_map(|id| Some(found.binding(*id)?.name.as_str()))
        .collect();
    if names.is_empty() {
        String::from("nothing")
    } else {
        names.join(", ")
    }
}

fn add_closures(function: usize, found: &Findings, marks: &mut Vec<Mark>) {
    for (number, closure) in found.closures.iter().enumerate() {
        let captured = closure.captures.iter();
        let keys: Vec<String> = captured.map(|id| key(function, *id)).collect();
        let keys = keys.join(" ");
        let names = escaped(&captured_names(found, closure));
        for span in &closure.marks {
            marks.push(Mark {
                span: *span,
                attributes: format!(
                    "class=\"c\" data-k=\"{function}.{number}\" data-c=\"{keys}\" data-t=\"closure: captures {names}\""
                ),
            });
        }
    }
}

/// What is said of a jump.
fn about_jump(found: &Findings, jump: &Jump) -> String {
    let target = jump
        .target
        .and_then(|target| found.sources.loops.get(target));
    let Some(mark) = target.and_then(|target| target.marks.first()) else {
        return String::from("leaves no loop or block of this function");
    };
    let line = mark.start.line;
    if jump.is_continue {
        format!("continue: goes on with the loop of line {line}")
    } else {
        format!("break: leaves what begins in line {line}")
    }
}

/// What is said of a loop or a block with a label.
fn about_loop(found: &Findings, number: usize) -> String {
    let jumps = found.jumps.iter().filter(|it| it.target == Some(number));
    let lines: Vec<String> = jumps
        .filter_map(|it| Some(it.marks.first()?.start.line.to_string()))
        .collect();
    if lines.is_empty() {
        String::from("no jump leaves it or goes on with it")
    } else {
        format!("jumps to it: line {}", lines.join(", "))
    }
}

fn add_jumps(function: usize, found: &Findings, marks: &mut Vec<Mark>) {
    for jump in &found.jumps {
        let key = match jump.target {
            Some(target) => format!(" data-j=\"{function}.{target}\""),
            None => String::new(),
        };
        let about = about_jump(found, jump);
        for span in &jump.marks {
            marks.push(Mark {
                span: *span,
                attributes: format!("class=\"j\"{key} data-t=\"{about}\""),
            });
        }
    }
    for (number, target) in found.sources.loops.iter().enumerate() {
        let about = about_loop(found, number);
        for span in &target.marks {
            marks.push(Mark {
                span: *span,
                attributes: format!(
                    "class=\"j to\" data-j=\"{function}.{number}\" data-t=\"{about}\""
                ),
            });
        }
    }
}

/// The marks of all functions by the line that they stand in, in their order; none lies in another.
pub fn marks_by_line(functions: &[Function<'_>]) -> HashMap<usize, Vec<Mark>> {
    let mut marks = Vec::new();
    for (function, (found, facts)) in functions.iter().enumerate() {
        add_bindings(function, found, &mut marks);
        add_uses(function, found, facts, &mut marks);
        add_fields(function, found, &mut marks);
        add_closures(function, found, &mut marks);
        add_jumps(function, found, &mut marks);
    }
    marks.sort_by_key(|mark| mark.span);
    let mut by_line: HashMap<usize, Vec<Mark>> = HashMap::new();
    let mut end = Place { line: 0, column: 0 };
    for mark in marks {
        let Span { start, end: behind } = mark.span;
        if start >= end && start.line == behind.line {
            end = behind;
            by_line.entry(start.line).or_default().push(mark);
        }
    }
    by_line
}
