//! The report as text, function by function.

use crate::findings::{Closure, Findings, Meaning, Usage};
use crate::lower::BindingSource;
use crate::span::Span;
use hir_expr_store::Name;
use std::collections::BTreeMap;
use std::fmt::{self, Write};

/// Names with their places: each name once, in the order of its first place.
fn by_name<'a>(places: impl Iterator<Item = (&'a Name, Span)>) -> Vec<(&'a Name, Vec<Span>)> {
    let mut found: BTreeMap<&Name, Vec<Span>> = BTreeMap::new();
    for (name, span) in places {
        found.entry(name).or_default().push(span);
    }
    let mut found: Vec<_> = found.into_iter().collect();
    found.sort_by_key(|(_, spans)| spans.first().copied());
    found
}

fn write_names<'a>(
    title: &str,
    places: impl Iterator<Item = (&'a Name, Span)>,
    out: &mut String,
) -> fmt::Result {
    let found = by_name(places);
    if found.is_empty() {
        return Ok(());
    }
    writeln!(out, "  {title}:")?;
    for (name, spans) in found {
        write!(out, "    {name}")?;
        for span in spans {
            write!(out, " {}", span.start)?;
        }
        writeln!(out)?;
    }
    Ok(())
}

fn write_closure(findings: &Findings, closure: &Closure, out: &mut String) -> fmt::Result {
    if let Some(mark) = closure.marks.first() {
        write!(out, "  the closure at {} captures", mark.start)?;
    }
    if closure.captures.is_empty() {
        return writeln!(out, " nothing");
    }
    for (at, id) in closure.captures.iter().enumerate() {
        let comma = if at == 0 { "" } else { "," };
        match findings.binding(*id) {
            Some(binding) => match binding.spans.first() {
                Some(span) => write!(out, "{comma} {} of {}", binding.name, span.start)?,
                None => write!(out, "{comma} {}", binding.name)?,
            },
            None => write!(out, "{comma} {id}")?,
        }
    }
    writeln!(out)
}

fn of_meaning(meaning: &Meaning) -> (&Name, Span) {
    (&meaning.name, meaning.span)
}

fn of_binding(binding: &BindingSource) -> Option<(&Name, Span)> {
    Some((&binding.name, *binding.spans.first()?))
}

/// Writes the report of a function.
pub fn write(findings: &Findings, out: &mut String) -> fmt::Result {
    writeln!(out, "{} at {}", findings.name, findings.place)?;
    for line in findings.text.lines() {
        writeln!(out, "    {line}")?;
    }
    let not_local = findings.not_local().map(of_meaning);
    write_names("names of no variable", not_local, out)?;
    let unused = findings.with_usage(Usage::Unused).filter_map(of_binding);
    write_names("variables that nothing uses", unused, out)?;
    let perhaps = findings
        .with_usage(Usage::PerhapsInMacro)
        .filter_map(of_binding);
    write_names("variables that only a macro call may use", perhaps, out)?;
    for closure in &findings.closures {
        write_closure(findings, closure, out)?;
    }
    write_names(
        "names that aren't reached",
        findings.unreached.iter().map(of_meaning),
        out,
    )?;
    for span in &findings.sources.unknown {
        writeln!(out, "  what syn doesn't know at {}", span.start)?;
    }
    Ok(())
}
