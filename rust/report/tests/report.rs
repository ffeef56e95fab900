//! The report of `data/names.rs`. What each name means is what rustc says, by its own tree (`-Zunpretty=hir-tree`); what is unused and
//! what closures capture is what the remarks in the file say, which were written by hand.

use std::collections::{BTreeMap, BTreeSet};
use std::path::PathBuf;
use std::process::{Command, Output};
use std::{env, fs};

fn data(name: &str) -> PathBuf {
    PathBuf::from(env!("CARGO_MANIFEST_DIR"))
        .join("tests/data")
        .join(name)
}

fn run(args: &[&str]) -> Output {
    let output = Command::new(env!("CARGO_BIN_EXE_hir-report"))
        .args(args)
        .output();
    output.expect("the program runs")
}

/// What the program writes of `data/names.rs`.
fn report(option: Option<&str>) -> String {
    let file = data("names.rs");
    let file = file.to_str().expect("a path that is text");
    let output = run(&option.into_iter().chain([file]).collect::<Vec<_>>());
    assert!(
        output.status.success(),
        "{}",
        String::from_utf8_lossy(&output.stderr)
    );
    String::from_utf8(output.stdout).expect("text")
}

fn source() -> String {
    fs::read_to_string(data("names.rs")).expect("the file")
}

/// The names behind this word in the remark of each line that has one.
fn remarks(word: &str) -> BTreeMap<usize, Vec<String>> {
    let mut found = BTreeMap::new();
    for (index, line) in source().lines().enumerate() {
        if let Some((_, names)) = line.split_once(&format!(" // {word} ")) {
            found.insert(index + 1, names.split(", ").map(String::from).collect());
        }
    }
    found
}

/// The line of a place, as `12:5` has it.
fn line_of(place: &str) -> usize {
    let (line, _) = place.split_once(':').expect("a place");
    line.parse().expect("a line")
}

#[test]
fn names_mean_what_rustc_says() {
    let wanted = fs::read_to_string(data("names.txt")).expect("the file");
    let wanted: BTreeSet<&str> = wanted.lines().collect();
    let report = report(Some("--names"));
    let found: BTreeSet<&str> = report
        .lines()
        .filter(|line| !line.ends_with(" -"))
        .collect();
    assert_eq!(found, wanted);
    assert!(wanted.len() > 80);
}

#[test]
fn closures_capture_what_the_remarks_say() {
    let mut found = BTreeMap::new();
    for line in report(None).lines() {
        let Some(rest) = line.strip_prefix("  the closure at ") else {
            continue;
        };
        let (place, names) = rest.split_once(" captures ").expect("captures");
        let names = names
            .split(", ")
            .map(|name| name.split(' ').next().unwrap_or(name));
        found.insert(line_of(place), names.map(String::from).collect());
    }
    assert_eq!(found, remarks("captures"));
}

#[test]
fn nothing_uses_what_the_remarks_say() {
    let mut found: BTreeMap<usize, Vec<String>> = BTreeMap::new();
    let mut is_unused = false;
    for line in report(None).lines() {
        match line.strip_prefix("    ") {
            Some(entry) if is_unused => {
                let (name, places) = entry.split_once(' ').expect("a name and a place");
                found
                    .entry(line_of(places))
                    .or_default()
                    .push(String::from(name));
            }
            Some(_) => {}
            None => is_unused = line == "  variables that nothing uses:",
        }
    }
    let mut wanted = remarks("unused");
    // `later` is used by nothing, and its line has the remark of its closure.
    let later = source()
        .lines()
        .position(|line| line.contains("let later"))
        .expect("a line");
    wanted.insert(later + 1, vec![String::from("later")]);
    assert_eq!(found, wanted);
}

#[test]
fn what_syn_doesn_t_know_is_refused_with_its_place() {
    let file = env::temp_dir().join(format!("hir-report-{}.rs", std::process::id()));
    fs::write(&file, "fn f() {\n    let x = ;\n}\n").expect("a file");
    let output = run(&[file.to_str().unwrap()]);
    fs::remove_file(&file).expect("the file is there");
    assert!(!output.status.success());
    let said = String::from_utf8_lossy(&output.stderr).into_owned();
    assert!(said.contains(".rs:2:13: "), "{said}");
    assert_eq!(run(&[]).status.code(), Some(2));
    assert_eq!(run(&["--pages"]).status.code(), Some(2));
}

/// A folder of its own for a test, with files of this many functions each.
fn folder_of(test: &str, functions: &[usize]) -> (PathBuf, Vec<String>) {
    let folder = env::temp_dir().join(format!("hir-report-{test}-{}", std::process::id()));
    fs::create_dir_all(&folder).expect("a folder");
    let mut files = Vec::new();
    for (number, count) in functions.iter().enumerate() {
        let file = folder.join(format!("file{number}.rs"));
        let function =
            |at| format!("fn f{number}_{at}(x: u8, y: u8) -> impl Fn() -> u8 {{ move || x }}\n");
        fs::write(&file, (0..*count).map(function).collect::<String>()).expect("a file");
        files.push(file.to_str().expect("text").to_string());
    }
    (folder, files)
}

fn texts(output: &Output) -> (String, String) {
    let text = |bytes: &[u8]| String::from_utf8(bytes.to_vec()).expect("text");
    (text(&output.stdout), text(&output.stderr))
}

#[test]
fn files_in_threads_come_in_their_order() {
    let (folder, mut files) = folder_of("threads", &[9, 0, 3, 1, 5, 2, 0, 4]);
    fs::write(&files[3], "fn f( {").expect("a file");
    files.insert(
        5,
        folder.join("absent.rs").to_str().expect("text").to_string(),
    );
    let mut alone = (String::new(), String::new());
    for file in &files {
        let (out, said) = texts(&run(&[file]));
        alone.0.push_str(&out);
        alone.1.push_str(&said);
    }
    assert_eq!(alone.0.matches(" captures x of ").count(), 23);
    assert_eq!(alone.1.lines().count(), 2);
    for threads in ["1", "3", "64"] {
        let args: Vec<&str> = files
            .iter()
            .map(String::as_str)
            .chain(["--threads", threads])
            .collect();
        let output = run(&args);
        assert_eq!(texts(&output), alone, "{threads}");
        assert_eq!(output.status.code(), Some(1));
    }
    for wrong in ["0", "-1", "many"] {
        assert_eq!(
            run(&[&files[0], "--threads", wrong]).status.code(),
            Some(2),
            "{wrong}"
        );
    }
    fs::remove_dir_all(folder).expect("the folder is there");
}

#[test]
fn several_pages_are_written_to_a_folder() {
    let (folder, files) = folder_of("pages", &[2, 1]);
    let pages = folder.join("pages");
    let args = [
        &files[0],
        &files[1],
        "--html",
        pages.to_str().expect("text"),
    ];
    assert_eq!(run(&args).status.code(), Some(2));
    fs::create_dir(&pages).expect("a folder");
    assert!(run(&args).status.success());
    let mut counts = Vec::new();
    for entry in fs::read_dir(&pages).expect("the pages") {
        let html = fs::read_to_string(entry.expect("a page").path()).expect("a page");
        counts.push(html.matches("<details ").count());
    }
    counts.sort_unstable();
    assert_eq!(counts, [1, 2]);
    fs::remove_dir_all(folder).expect("the folder is there");
}
