//! The program on requests, as a caller in another language writes them.

use serde_json::{json, Value};
use std::io::Write;
use std::process::{Command, Stdio};

/// The answers to requests, and the status of the program.
fn ask(input: &str) -> (Vec<Value>, Option<i32>) {
    let mut program = Command::new(env!("CARGO_BIN_EXE_hir-ask-json"))
        .stdin(Stdio::piped())
        .stdout(Stdio::piped())
        .spawn()
        .unwrap();
    program
        .stdin
        .take()
        .unwrap()
        .write_all(input.as_bytes())
        .unwrap();
    let output = program.wait_with_output().unwrap();
    let lines = String::from_utf8(output.stdout).unwrap();
    let answers = lines
        .lines()
        .map(|line| serde_json::from_str(line).unwrap())
        .collect();
    (answers, output.status.code())
}

/// `fn f(x) { (x, y) }`, as data.
fn body() -> Value {
    let path =
        |name: &str| json!({ "Path": { "BarePath": { "kind": "Plain", "segments": [name] } } });
    json!({
        "store": {
            "exprs": [path("x"), path("y"), { "Tuple": { "exprs": [0, 1] } }],
            "pats": [{ "Bind": { "id": 0, "subpat": null } }],
            "bindings": [{ "name": "x" }],
            "roots": [2]
        },
        "body": { "def": { "FunctionId": 0 }, "params": [0] },
        "names": [[{ "FunctionId": 0 }, "f"]],
        "ask": [
            { "children": 2 }, { "binding_at": 0 }, { "resolve": { "expr": 2, "name": "y" } }, "unresolved",
            { "rename": { "binding": 0, "name": "y" } }, { "print": {} }, { "parent": { "Expr": 0 } }, { "captures": 2 }
        ]
    })
}

#[test]
fn a_body_is_asked() {
    let (answers, status) = ask(&format!("{}\n{{\"ask\": [\"store\"]}}\n", body()));
    assert_eq!(
        answers[0]["answers"],
        json!([
            { "ok": [0, 1] },
            { "ok": 0 },
            { "ok": null },
            { "ok": [{ "ExprId": 1 }] },
            { "error": "ExprId(1) resolves to no variable, and would resolve to it" },
            { "ok": "fn f(x) (x, y, )" },
            { "ok": { "Expr": 2 } },
            { "error": "the expression isn't a closure that the body reaches" }
        ])
    );
    // What the program writes of a store it reads again.
    let store = answers[1]["answers"][0]["ok"].clone();
    let (again, _) = ask(&json!({ "store": store, "ask": [{ "children": 2 }] }).to_string());
    assert_eq!(again[0]["answers"], json!([{ "ok": [0, 1] }]));
    assert_eq!(status, Some(0));
}

#[test]
fn a_store_is_tested_when_it_is_read() {
    let (answers, status) =
        ask(r#"{"store": {"exprs": [{"Tuple": {"exprs": [0]}}], "has_roots": true}}"#);
    let error = answers[0]["error"].as_str().unwrap();
    assert!(
        error.starts_with("ExprId(0) is on a cycle, or a descendant of one"),
        "{error}"
    );
    assert_eq!(status, Some(2));
}

#[test]
fn lines_are_asked() {
    let (answers, status) = ask(
        "{\"lines\": \"expr path a\\nroot 0\\nprint-expr 0\\nchain 7\\n\"}\n{\"lines\": \"nodes\"}",
    );
    assert_eq!(
        answers[0]["lines"],
        json!([{ "ok": "a" }, { "refused": "unreached" }])
    );
    assert_eq!(
        answers[1]["lines"][0]["ok"],
        "exprs 1 pats 0 bindings 0 labels 0 types 0 lifetimes 0"
    );
    assert_eq!(status, Some(0));
}

#[test]
fn what_is_no_request_ends_the_program() {
    for input in [
        "{",
        "[]",
        "{\"asks\": []}",
        "{\"ask\": [\"nothing\"]}",
        "{\"store\": {\"roots\": [0], \"ends\": [{}]}}",
    ] {
        let (answers, status) = ask(input);
        assert!(answers[0]["error"].is_string(), "{input}");
        assert_eq!(status, Some(2), "{input}");
    }
    assert_eq!(ask("").1, Some(0));
}
