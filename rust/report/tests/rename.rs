//! `--rename` on `data/renames.rs`: the changed file, or the conflict with its places. That rustc resolves the changed files so is tried by
//! `renames-against-rustc` on whole crates.

use std::path::PathBuf;
use std::process::Command;
use std::{env, fs};

fn path() -> PathBuf {
    PathBuf::from(env!("CARGO_MANIFEST_DIR")).join("tests/data/renames.rs")
}

fn source() -> String {
    fs::read_to_string(path()).expect("the file")
}

/// What a run wrote to both ends, and its status.
struct Run {
    status: Option<i32>,
    out: String,
    said: String,
}

fn run_on(path: &str, place: &str, name: &str) -> Run {
    let output = Command::new(env!("CARGO_BIN_EXE_hir-report"))
        .args([path, "--rename", place, name])
        .output()
        .expect("the program runs");
    Run {
        status: output.status.code(),
        out: String::from_utf8(output.stdout).expect("text"),
        said: String::from_utf8(output.stderr).expect("text"),
    }
}

/// The place of the word that begins where `^` is in this piece of a line.
fn place_of(marked: &str) -> String {
    let before = marked.find('^').expect("a mark");
    let piece = marked.replacen('^', "", 1);
    let found = source().lines().enumerate().find_map(|(index, line)| {
        let start = line.find(&piece)?;
        let column = line[..start + before].chars().count();
        Some(format!("{}:{}", index + 1, column + 1))
    });
    found.unwrap_or_else(|| panic!("{marked}"))
}

fn rename(marked: &str, name: &str) -> Run {
    let path = path();
    run_on(path.to_str().expect("text"), &place_of(marked), name)
}

/// The file changes by these pieces, and nothing is said.
fn changes(marked: &str, name: &str, pieces: &[(&str, &str)]) {
    let run = rename(marked, name);
    assert_eq!((run.status, run.said.as_str()), (Some(0), ""), "{marked}");
    let mut wanted = source();
    for (old, new) in pieces {
        assert_eq!(wanted.matches(old).count(), 1, "{old}");
        wanted = wanted.replace(old, new);
    }
    assert_eq!(run.out, wanted, "{marked}");
}

/// There is no rename, and all of this is said: words, and places of marked pieces.
fn conflicts(marked: &str, name: &str, words: &str, places: &[&str]) {
    let run = rename(marked, name);
    assert_eq!((run.status, run.out.as_str()), (Some(1), ""), "{marked}");
    assert!(run.said.contains(words), "{}", run.said);
    for place in places {
        let place = place_of(place);
        assert!(run.said.contains(&place), "{place}: {}", run.said);
    }
}

#[test]
fn shadowing_that_harms_nothing_is_taken() {
    let pieces = [
        ("shadows(a", "shadows(b"),
        ("let b = a + 1", "let b = b + 1"),
    ];
    changes("shadows(^a: i32)", "b", &pieces);
    changes("let b = ^a + 1", "b", &pieces);
    changes(
        "let ^b = a",
        "a",
        &[
            ("let b = a + 1", "let a = a + 1"),
            ("let a = b", "let a = a"),
        ],
    );
    changes("let ^b = a", "b", &[]);
}

#[test]
fn short_fields_keep_their_names() {
    changes(
        "let ^x = x",
        "new",
        &[
            ("let x = x", "let new = x"),
            ("P { x, r#type: 1", "P { x: new, r#type: 1"),
        ],
    );
    changes(
        "P { ^x, ref",
        "r#fn",
        &[
            ("P { x, ref", "P { x: r#fn, ref"),
            ("let x = x", "let x = r#fn"),
        ],
    );
    changes(
        "*^r#type",
        "kind",
        &[
            ("x, ref r#type", "x, r#type: ref kind"),
            ("*r#type", "*kind"),
        ],
    );
}

#[test]
fn targets_of_assignments_are_uses() {
    changes(
        "(^first, x)",
        "y",
        &[
            ("let mut first", "let mut y"),
            ("r#type: first }", "r#type: y }"),
            ("(first, x) = (x, first)", "(y, x) = (x, y)"),
            ("x += first", "x += y"),
        ],
    );
    changes(
        "^x += first",
        "y",
        &[
            ("let mut x", "let mut y"),
            ("P { x, r#type: first }", "P { x: y, r#type: first }"),
            ("(first, x) = (x, first)", "(first, y) = (y, first)"),
            ("x += first", "y += first"),
        ],
    );
}

#[test]
fn columns_count_characters() {
    changes(
        "/* ä */ ^one",
        "a",
        &[(
            "Some(one) if one < b => /* ä */ one",
            "Some(a) if a < b => /* ä */ a",
        )],
    );
    changes(
        "arms(^ä",
        "a",
        &[("arms(ä", "arms(a"), ("match ä", "match a")],
    );
}

#[test]
fn conflicts_are_said_with_both_places() {
    conflicts(
        "let ^a = b",
        "c",
        "resolves to no variable",
        &["a + ^c()", "let ^a = b"],
    );
    let one = "Some(^one)";
    conflicts(
        "^b: i32) -> i32",
        "one",
        "would resolve to the variable of",
        &[one, "one < ^b"],
    );
    conflicts(
        one,
        "b",
        "would resolve to one of",
        &["one < ^b", one, "^b: i32) -> i32"],
    );
    conflicts(
        "P { ^x, ref",
        "r#type",
        "is bound together with",
        &["ref ^r#type"],
    );
    conflicts("(^self)", "this", "self has no other name", &[]);
    conflicts("^self = other", "this", "self has no other name", &[]);
    conflicts(
        "match ^ä",
        "LIMIT",
        "resolves to no variable",
        &["0..=^LIMIT"],
    );
}

#[test]
fn a_name_in_a_constant_is_in_the_way() {
    let words = "is in a constant, where b of";
    conflicts("let ^b = a;", "size", words, &["[b; ^size()]"]);
    let words = "is in a constant, where other of";
    conflicts("let ^other", "size", words, &["[u8; ^size()]"]);
    // What is in the constants before it doesn't see it; that it hides the name from an item is a warning.
    let run = rename("let ^array", "size");
    assert_eq!(
        (run.status, run.said.lines().count()),
        (Some(0), 1),
        "{}",
        run.said
    );
    assert!(run.said.contains("an item has this name"), "{}", run.said);
}

#[test]
fn what_is_no_variable_is_refused() {
    conflicts("a + ^c()", "d", "c resolves to no variable", &["a + ^c()"]);
    conflicts("struct ^P", "d", "no variable is written or used here", &[]);
    for (place, name) in [
        ("1", "x"),
        ("0:0", "x"),
        ("1:1", "fn"),
        ("1:1", "a b"),
        ("1:1", "_"),
    ] {
        let run = run_on(path().to_str().expect("text"), place, name);
        assert_eq!(run.status, Some(2), "{place} {name}: {}", run.said);
    }
}

#[test]
fn macro_calls_with_the_names_are_warned_of() {
    let run = rename("macros(^value", "v");
    assert_eq!(run.status, Some(0));
    let place = place_of("println!(^\"{value");
    assert_eq!(run.said.lines().count(), 1, "{}", run.said);
    assert!(
        run.said.contains(&place) && run.said.contains("has the name value"),
        "{}",
        run.said
    );
    // To the name of a variable that macro calls use.
    let run = rename("macros(^value", "text");
    assert_eq!(
        (run.status, run.said.lines().count()),
        (Some(0), 2),
        "{}",
        run.said
    );
    let run = rename("macros(value: i32, ^other", "more");
    assert_eq!(
        (run.status, run.said.lines().count()),
        (Some(0), 3),
        "{}",
        run.said
    );
    assert!(run.out.contains("macros(value: i32, more: i32)"));
    let run = rename("inner(^v", "size");
    assert_eq!(
        (run.status, run.out.as_str()),
        (Some(1), ""),
        "{}",
        run.said
    );
    let run = rename("let ^array", "v");
    assert_eq!(
        (run.status, run.said.lines().count()),
        (Some(0), 1),
        "{}",
        run.said
    );
    assert!(run.said.contains("an item has this name"), "{}", run.said);
    let run = rename("Some(^two)", "Two");
    assert_eq!(
        (run.status, run.said.lines().count()),
        (Some(0), 1),
        "{}",
        run.said
    );
}

#[test]
fn line_ends_and_a_mark_of_byte_order_stay() {
    let file = env::temp_dir().join(format!("hir-rename-{}.rs", std::process::id()));
    let path = file.to_str().expect("text");
    for text in [
        "\u{feff}fn f(x: u8) -> u8 {\r\n    x\r\n}\r\n",
        "#!/bin/x x\nfn f(x: u8) -> u8 { x }",
    ] {
        fs::write(&file, text).expect("a file");
        let place = if text.starts_with('#') { "2:6" } else { "1:6" };
        let run = run_on(path, place, "long");
        let changed = text
            .replace("f(x", "f(long")
            .replace("    x", "    long")
            .replace("{ x", "{ long");
        assert_eq!((run.status, run.out), (Some(0), changed), "{}", run.said);
    }
    fs::remove_file(&file).expect("the file is there");
}
