//! The options `--rename` and `--renames`: the changed file, or what would be changed.

use crate::rename::{NewName, Reason, Refused, Renamed, Renamer};
use crate::span::Place;
use hir_expr_store::RenameFault;
use std::error::Error;
use std::fmt;
use std::io::{BufRead, Write};

/// A rename that is asked for.
pub struct Request {
    /// Where the variable is written or used.
    pub place: Place,
    /// Its new name.
    pub name: NewName,
}

impl Request {
    /// The rename of the variable at `LINE:COLUMN` to this name.
    pub fn of(place: &str, name: &str) -> Result<Request, String> {
        Ok(Request {
            place: place_of(place).ok_or_else(|| format!("{place} is no place"))?,
            name: NewName::of(name)?,
        })
    }
}

/// The place of `LINE:COLUMN`, both counted from 1.
fn place_of(text: &str) -> Option<Place> {
    let (line, column) = text.split_once(':')?;
    let column: usize = column.parse().ok()?;
    Some(Place {
        line: line.parse().ok()?,
        column: column.checked_sub(1)?,
    })
}

/// A source as syn has it.
pub fn parsed(file: &str, source: &str) -> Result<syn::File, Box<dyn Error>> {
    Ok(syn::parse_file(source).map_err(|error| {
        let place = Place::from(error.span().start());
        format!("{file}:{place}: {error}")
    })?)
}

/// What is at the front of some files, and counts for no place.
pub const MARK: &str = "\u{feff}";

/// Says what the store doesn't see.
fn warn(
    file: &str,
    request: &Request,
    renamed: &Renamed,
    said: &mut impl fmt::Write,
) -> fmt::Result {
    for (name, place) in &renamed.in_macros {
        writeln!(
            said,
            "{file}:{place}: warning: a macro call has the name {name}, which isn't renamed"
        )?;
    }
    for place in &renamed.in_items {
        writeln!(
            said,
            "{file}:{place}: warning: an item has this name, and may not see there what it means"
        )?;
    }
    for place in &renamed.unknown {
        writeln!(
            said,
            "{file}:{place}: warning: what is written here isn't known, and may use the variable"
        )?;
    }
    if request.name.begins_upper() {
        let place = request.place;
        writeln!(
            said,
            "{file}:{place}: warning: a pattern with the name of an item is no variable"
        )?;
    }
    Ok(())
}

/// Writes a file in which the variable at a place has another name, or says why there is no such file; returns whether there is.
pub fn write_renamed(
    file: &str,
    source: &str,
    request: &Request,
    out: &mut impl Write,
    said: &mut impl fmt::Write,
) -> Result<bool, Box<dyn Error>> {
    let place = request.place;
    let (mark, source) = match source.strip_prefix(MARK) {
        Some(rest) => (MARK, rest),
        None => ("", source),
    };
    let parsed = parsed(file, source)?;
    let functions = Renamer::new(source, &parsed);
    match functions.rename(place, &request.name)? {
        Err(refused) => writeln!(said, "{file}:{place}: {refused}")?,
        Ok(Renamed {
            conflict: Some(conflict),
            ..
        }) => writeln!(said, "{file}:{place}: {conflict}")?,
        Ok(renamed) => {
            warn(file, request, &renamed, said)?;
            let changed = functions.lines().with(renamed.edits);
            let changed = changed.ok_or("a change isn't in the file")?;
            out.write_all(mark.as_bytes())?;
            out.write_all(changed.as_bytes())?;
            return Ok(true);
        }
    }
    Ok(false)
}

/// The word for a reason.
const fn word(reason: Reason) -> &'static str {
    match reason {
        Reason::Fault(RenameFault::NotBound) => "NotBound",
        Reason::Fault(RenameFault::IsSelf) => "IsSelf",
        Reason::Fault(RenameFault::SameFrame { .. }) => "SameFrame",
        Reason::Fault(RenameFault::Hidden { .. }) => "Hidden",
        Reason::Fault(RenameFault::Captures { .. }) => "Captures",
        Reason::InConstant => "InConstant",
    }
}

/// Reads a line `LINE:COLUMN NAME` for each rename, and writes a line for each, in parts with a tab before all but the first: `accepted`,
/// the store's reason and behind it the places of the use and of the other variable, or `absent`; how many names in macro calls and in items
/// may be meant; and each change, as `3:5-3:6=name`, also of a rename that was refused.
pub fn write_each(
    file: &str,
    source: &str,
    input: impl BufRead,
    out: &mut impl Write,
) -> Result<(), Box<dyn Error>> {
    let source = source.strip_prefix(MARK).unwrap_or(source);
    let parsed = parsed(file, source)?;
    let functions = Renamer::new(source, &parsed);
    for line in input.lines() {
        let line = line?;
        let (place, name) = line
            .split_once(' ')
            .ok_or("a place and a name are wanted")?;
        let request = Request::of(place, name)?;
        match functions.rename(request.place, &request.name)? {
            Err(Refused::NoVariable | Refused::Unresolved(_)) => write!(out, "absent")?,
            Ok(renamed) => {
                match &renamed.conflict {
                    None => write!(out, "accepted")?,
                    Some(conflict) => {
                        write!(out, "{}", word(conflict.reason))?;
                        for place in [conflict.usage, conflict.other] {
                            write!(
                                out,
                                " {}",
                                place.map_or_else(|| String::from("-"), |it| it.to_string())
                            )?;
                        }
                    }
                }
                let unseen =
                    renamed.in_macros.len() + renamed.in_items.len() + renamed.unknown.len();
                write!(out, "\t{unseen}")?;
                for edit in renamed.edits {
                    write!(out, "\t{edit}")?;
                }
            }
        }
        writeln!(out)?;
    }
    Ok(())
}
