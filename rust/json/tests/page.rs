//! The caller in Python on the page of the package, run as it stands there.

use std::path::Path;
use std::process::{Command, Stdio};
use std::{env, fs};

/// What stands on the page between the two lines.
fn between<'a>(page: &'a str, begin: &str, end: &str) -> &'a str {
    let (_, rest) = page.split_once(begin).unwrap();
    rest.split_once(end).unwrap().0
}

#[test]
fn the_caller_in_python_prints_what_the_page_says() {
    let page =
        fs::read_to_string(Path::new(env!("CARGO_MANIFEST_DIR")).join("../README.md")).unwrap();
    let (_, section) = page.split_once("## From Python").unwrap();
    let script = between(section, "```python\n", "```");
    let wanted = between(section, "```\n\n    ", "\n");
    let folder = Path::new(env!("CARGO_BIN_EXE_hir-ask-json"))
        .parent()
        .unwrap();
    let path = format!("{}:{}", folder.display(), env::var("PATH").unwrap());
    let python = Command::new("python3")
        .args(["-c", script])
        .env("PATH", path)
        .stderr(Stdio::inherit())
        .output();
    match python {
        Ok(output) => assert_eq!(String::from_utf8(output.stdout).unwrap().trim_end(), wanted),
        // A machine without Python has no such caller.
        Err(error) => eprintln!("python3 can't be started: {error}"),
    }
}
