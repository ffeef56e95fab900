//! One page of a file, without outside parts: the source, on which pointing at a name lights up its variable and its uses, at a closure what
//! it captures, and at a jump what it leaves; and a field for a new name of a variable, which says what would change or what is in conflict.

mod facts;
mod json;
mod marks;

use crate::findings::{Closure, Findings, Usage};
use crate::lower::BindingSource;
use crate::span::Place;
use json::Json;
use marks::{captured_names, marks_by_line, Mark};
use std::fmt::{self, Write};

pub use facts::Facts;

/// A function on the page.
pub type Function<'a> = (&'a Findings, &'a Facts);

/// The style of the page.
const STYLE: &str = include_str!("page.css");

/// What the page does: what it reckons, and what it shows.
const SCRIPTS: [&str; 2] = [include_str!("verdict.js"), include_str!("page.js")];

/// What the page may do: nothing is loaded from anywhere, and nothing sent.
const POLICY: &str = "default-src 'none'; style-src 'unsafe-inline'; script-src 'unsafe-inline'";

/// A text, in which what HTML takes for marks is written in another way.
fn escaped(text: &str) -> String {
    let mut out = String::with_capacity(text.len());
    for c in text.chars() {
        match c {
            '&' => out.push_str("&amp;"),
            '<' => out.push_str("&lt;"),
            '>' => out.push_str("&gt;"),
            '"' => out.push_str("&quot;"),
            c => out.push(c),
        }
    }
    out
}

/// Whether a line is a comment, and nothing else.
fn is_comment(line: &str) -> bool {
    line.trim_start().starts_with("//")
}

/// Writes a line of the source with its marks.
fn write_line(line: &str, marks: &[Mark], out: &mut String) -> fmt::Result {
    let chars: Vec<char> = line.chars().collect();
    let text = |from: usize, to: usize| -> String {
        let part = chars.get(from..to.min(chars.len())).unwrap_or_default();
        escaped(&part.iter().collect::<String>())
    };
    let mut at = 0;
    for mark in marks {
        let (start, end) = (mark.span.start.column, mark.span.end.column);
        let (before, inside) = (text(at, start), text(start, end));
        write!(out, "{before}<span {}>{inside}</span>", mark.attributes)?;
        at = end;
    }
    out.write_str(&text(at, chars.len()))
}

fn write_source(source: &str, functions: &[Function<'_>], out: &mut String) -> fmt::Result {
    let marks = marks_by_line(functions);
    out.push_str("<pre id=\"source\">");
    for (index, line) in source.lines().enumerate() {
        let number = index + 1;
        let class = if is_comment(line) { "l m" } else { "l" };
        write!(out, "<span class=\"{class}\" id=\"L{number}\">")?;
        write_line(line, marks.get(&number).map_or(&[], Vec::as_slice), out)?;
        out.push_str("\n</span>");
    }
    writeln!(out, "</pre>")
}

fn link(place: Place) -> String {
    format!("<a href=\"#L{}\">{place}</a>", place.line)
}

/// Writes names with links to their places, each name once.
fn write_list<'a>(
    title: &str,
    items: impl Iterator<Item = (&'a str, Place)>,
    out: &mut String,
) -> fmt::Result {
    let mut entries: Vec<(&str, String)> = Vec::new();
    for (name, place) in items {
        let link = link(place);
        match entries.iter_mut().find(|(other, _)| *other == name) {
            Some((_, links)) => write!(links, " {link}")?,
            None => entries.push((name, link)),
        }
    }
    if entries.is_empty() {
        return Ok(());
    }
    write!(out, "<h4>{title}</h4><ul>")?;
    for (name, links) in entries {
        write!(out, "<li><code>{}</code> {links}</li>", escaped(name))?;
    }
    writeln!(out, "</ul>")
}

fn write_bindings<'a>(
    title: &str,
    bindings: impl Iterator<Item = &'a BindingSource>,
    out: &mut String,
) -> fmt::Result {
    let places = bindings.filter_map(|it| Some((it.name.as_str(), it.spans.first()?.start)));
    write_list(title, places, out)
}

fn write_closure(found: &Findings, closure: &Closure, out: &mut String) -> fmt::Result {
    let Some(mark) = closure.marks.first() else {
        return Ok(());
    };
    let names = escaped(&captured_names(found, closure));
    let link = link(mark.start);
    writeln!(
        out,
        "<p>The closure at {link} captures <code>{names}</code>.</p>"
    )
}

fn write_function(number: usize, found: &Findings, out: &mut String) -> fmt::Result {
    let name = escaped(&found.name);
    let link = link(found.place);
    writeln!(
        out,
        "<details id=\"F{number}\"><summary><code>{name}</code> {link}</summary>"
    )?;
    let unused = found.with_usage(Usage::Unused);
    write_bindings("Variables that nothing uses", unused, out)?;
    let perhaps = found.with_usage(Usage::PerhapsInMacro);
    write_bindings("Variables that only a macro call may use", perhaps, out)?;
    for closure in &found.closures {
        write_closure(found, closure, out)?;
    }
    let not_local = found
        .not_local()
        .map(|it| (it.name.as_str(), it.span.start));
    write_list("Names of no variable", not_local, out)?;
    let text = escaped(&found.text);
    writeln!(
        out,
        "<h4>As the store prints it</h4><pre class=\"body\">{text}</pre></details>"
    )
}

/// The beginning of a page, to the source.
fn write_head(title: &str, counts: &str, out: &mut String) -> fmt::Result {
    write!(
        out,
        "<!DOCTYPE html>\n<html lang=\"en\"><head><meta charset=\"utf-8\">\n\
         <meta http-equiv=\"Content-Security-Policy\" content=\"{POLICY}\">\n\
         <meta name=\"viewport\" content=\"width=device-width, initial-scale=1\">\n<title>{title}</title>\n\
         <style>\n{STYLE}</style></head><body>\n\
         <header><h1>{title}</h1><p>{counts}</p>\
         <button id=\"list\" type=\"button\" aria-expanded=\"false\" aria-controls=\"functions\">Functions</button></header>\n<main>\n"
    )
}

/// What a page ends with: what is said of a name, and the field for a new one.
const PANEL: &str = "<footer id=\"panel\"><p id=\"about\" role=\"status\"></p>\n\
    <form id=\"rename\" hidden><label>New name <input id=\"name\" autocomplete=\"off\" autocapitalize=\"off\" spellcheck=\"false\"></label>\n\
    <p id=\"verdict\" role=\"status\"></p></form></footer>\n";

/// The page of a file.
pub fn page(file: &str, source: &str, functions: &[Function<'_>]) -> Result<String, fmt::Error> {
    let title = escaped(file.rsplit('/').next().unwrap_or(file));
    let nodes: usize = functions.iter().map(|(found, _)| found.nodes).sum();
    let lines = source.lines().count();
    let counts = format!(
        "{lines} lines, {} functions<span class=\"keys\">, {nodes} nodes</span>",
        functions.len()
    );
    let mut out = String::new();
    write_head(&title, &counts, &mut out)?;
    write_source(source, functions, &mut out)?;
    out.push_str(
        "<aside id=\"functions\"><h2>Functions</h2>\n\
         <label>Find <input id=\"find\" type=\"search\" autocomplete=\"off\" spellcheck=\"false\"></label>\n",
    );
    for (number, (found, _)) in functions.iter().enumerate() {
        write_function(number, found, &mut out)?;
    }
    let facts: Json = functions
        .iter()
        .map(|(found, facts)| facts::to_json(found, facts))
        .collect();
    write!(
        out,
        "</aside></main>\n{PANEL}<script id=\"facts\" type=\"application/json\">{facts}</script>\n"
    )?;
    for script in SCRIPTS {
        writeln!(out, "<script>\n{script}</script>")?;
    }
    out.push_str("</body></html>\n");
    Ok(out)
}
