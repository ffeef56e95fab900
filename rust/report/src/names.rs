//! Each path of one name, and the place of the variable that it means: what another judge can be compared with.

use crate::findings::{Findings, Meaning};
use std::io::{self, Write};

fn write_path(found: &Findings, meaning: &Meaning, out: &mut impl Write) -> io::Result<()> {
    let binding = meaning.binding.and_then(|id| found.binding(id));
    write!(out, "{} {} ", meaning.span.start, meaning.name)?;
    match binding.and_then(|binding| binding.spans.first()) {
        Some(span) => writeln!(out, "{}", span.start),
        None => writeln!(out, "-"),
    }
}

/// Writes a line for each path of one name: its place, its name, and the place of its variable, or `-`.
pub fn write<'a>(
    findings: impl Iterator<Item = &'a Findings>,
    out: &mut impl Write,
) -> io::Result<()> {
    for found in findings {
        for meaning in &found.meanings {
            write_path(found, meaning, out)?;
        }
    }
    Ok(())
}

/// Writes for each function a line `function`, with where it begins and ends and its name; for each of its variables a line `variable`,
/// with its name and the places where it is written; and for each path of one name a line `path` as above.
pub fn write_outline<'a>(
    findings: impl Iterator<Item = &'a Findings>,
    out: &mut impl Write,
) -> io::Result<()> {
    for found in findings {
        let span = found.span;
        writeln!(out, "function {} {} {}", span.start, span.end, found.name)?;
        for binding in found
            .sources
            .bindings
            .iter()
            .filter(|it| !it.spans.is_empty())
        {
            write!(out, "variable {}", binding.name)?;
            for span in &binding.spans {
                write!(out, " {}", span.start)?;
            }
            writeln!(out)?;
        }
        for meaning in &found.meanings {
            write!(out, "path ")?;
            write_path(found, meaning, out)?;
        }
    }
    Ok(())
}
