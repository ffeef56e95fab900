//! Each line of the rows that makes a node: read as the node, and written as the line again.

mod common;

use common::{is_of_answer, rows};
use hir_expr_store::hir::{Binding, Expr, Label, LifetimeRef, Pat, TypeRef};
use hir_expr_store::lines::Session;
use hir_expr_store::notation::Notation;
use std::collections::BTreeSet;

const EXPRS: [&str; 40] = [
    "array",
    "assign",
    "await",
    "become",
    "bin",
    "block",
    "bool",
    "break",
    "bytes",
    "call",
    "cast",
    "char",
    "closure",
    "const",
    "continue",
    "cstring",
    "field",
    "float",
    "if",
    "include-bytes",
    "index",
    "int",
    "let",
    "loop",
    "match",
    "method",
    "missing",
    "offset-of",
    "path",
    "record",
    "ref",
    "repeat",
    "return",
    "string",
    "tuple",
    "uint",
    "unary",
    "underscore",
    "yeet",
    "yield",
];

const PATS: [&str; 17] = [
    "bind", "box", "deref", "expr", "lit", "missing", "not-null", "or", "path", "range", "record",
    "ref", "rest", "slice", "tstruct", "tuple", "wild",
];

const TYPES: [&str; 14] = [
    "array",
    "dyn",
    "error",
    "fn",
    "impl",
    "never",
    "param",
    "path",
    "pattern",
    "placeholder",
    "raw",
    "ref",
    "slice",
    "tuple",
];

const LIFETIMES: [&str; 5] = ["error", "named", "param", "placeholder", "static"];

/// The line that is written for what a line makes; `None` where it isn't read, or where what is written isn't read as the same.
fn again<T: Notation + PartialEq>(line: &str) -> Option<String> {
    let node = T::from_line(line)?;
    let written = node.to_line();
    (T::from_line(&written)? == node).then_some(written)
}

/// The line that is written for this one, where it makes a node.
fn rewritten(line: &str) -> Option<Option<String>> {
    let (word, rest) = line.split_once(' ')?;
    let written = match word {
        "expr" => again::<Expr>(rest),
        "pat" => again::<Pat>(rest),
        "type" => again::<TypeRef>(rest),
        "lifetime" => again::<LifetimeRef>(rest),
        "label" => again::<Label>(rest),
        "bind" => again::<Binding>(rest),
        _ => return None,
    };
    Some(written.map(|written| format!("{word} {written}")))
}

/// Whether the library makes the same node of two lines: it writes one line for both.
fn are_equal(line: &str, written: &str, session: &mut Session) -> bool {
    let arena = match line.split_once(' ') {
        Some(("bind", _)) => "binding",
        Some((word, _)) => word,
        None => return false,
    };
    let text = format!("begin\n{line}\n{written}\nroots\nline {arena}:0\nline {arena}:1\n");
    match session.ask(&text).unwrap().as_slice() {
        [first, second] => !first.is_refusal && first == second,
        _ => false,
    }
}

fn met(forms: &BTreeSet<String>, word: &str) -> Vec<String> {
    let front = format!("{word} ");
    forms
        .iter()
        .filter_map(|form| form.strip_prefix(&front))
        .map(String::from)
        .collect()
}

#[test]
fn each_node_is_read_and_written() {
    let mut forms = BTreeSet::new();
    let mut differences = BTreeSet::new();
    let (mut count, mut others) = (0, 0);
    let mut session = Session::open().unwrap();
    for row in rows() {
        for line in row.lines.iter().filter(|line| !is_of_answer(line)) {
            let Some(written) = rewritten(line) else {
                continue;
            };
            count += 1;
            forms.insert(line.split(' ').take(2).collect::<Vec<_>>().join(" "));
            match written {
                Some(written) if written == *line => {}
                // Characters in quotes may be written in several ways.
                Some(written) if line.contains('"') && are_equal(line, &written, &mut session) => {
                    others += 1;
                }
                written => {
                    differences.insert(format!("{}: {line} -> {written:?}", row.place));
                }
            }
        }
    }
    assert!(differences.is_empty(), "{differences:#?}");
    assert!(count > 10_000, "{count} nodes");
    assert!(others < 20, "{others} are written in another way");
    assert_eq!(met(&forms, "expr"), EXPRS);
    assert_eq!(met(&forms, "pat"), PATS);
    assert_eq!(met(&forms, "type"), TYPES);
    assert_eq!(met(&forms, "lifetime"), LIFETIMES);
}
