//! Pages: that of `data/names.rs` has its source and what jumps leave, and what a page says of renames is what the store says.

use std::path::{Path, PathBuf};
use std::process::Command;
use std::{env, fs};

fn data(name: &str) -> PathBuf {
    PathBuf::from(env!("CARGO_MANIFEST_DIR"))
        .join("tests/data")
        .join(name)
}

fn source() -> String {
    fs::read_to_string(data("names.rs")).expect("the file")
}

/// The page of a file.
fn page_of(file: &Path, test: &str) -> String {
    let page = env::temp_dir().join(format!("hir-report-{test}-{}.html", std::process::id()));
    let written = Command::new(env!("CARGO_BIN_EXE_hir-report"))
        .arg(file)
        .arg("--html")
        .arg(&page)
        .status();
    assert!(written.expect("the program runs").success());
    let html = fs::read_to_string(&page).expect("the page");
    fs::remove_file(&page).expect("the page is there");
    html
}

/// The page of `data/names.rs`.
fn page(test: &str) -> String {
    page_of(&data("names.rs"), test)
}

/// The words in a line of a page that are marked as jumps or as what they leave, each with its key.
fn jumps_in(html: &str, line: usize) -> Vec<(&str, &str)> {
    let mark = format!("id=\"L{line}\"");
    let line = html
        .lines()
        .find(|line| line.contains(&mark))
        .expect("a line");
    let marked = line.split(" data-j=\"").skip(1);
    let found = marked.map(|rest| {
        let (key, rest) = rest.split_once('"').expect("a key");
        let (_, rest) = rest.split_once('>').expect("an element");
        (rest.split('<').next().unwrap_or(rest), key)
    });
    found.collect()
}

#[test]
fn a_page_shows_what_jumps_leave() {
    let html = page("jumps");
    let source = source();
    let line_with = |text: &str| {
        let line = source.lines().position(|line| line.contains(text));
        line.expect("a line") + 1
    };
    let outer = jumps_in(&html, line_with("'outer: while"));
    let key = outer[0].1;
    assert_eq!(outer, [("'outer", key), ("while", key)]);
    let go_on = jumps_in(&html, line_with("continue 'outer"));
    assert_eq!(go_on, [("continue", key), ("'outer", key)]);
    let plain = jumps_in(&html, line_with("i = loop {"));
    let leave = jumps_in(&html, line_with("break i + 1"));
    assert_eq!((plain[0].0, leave[0].0), ("loop", "break"));
    assert_eq!(plain[0].1, leave[0].1);
    assert_ne!(plain[0].1, key);
    // The lowered end of a `for` has no place.
    assert_eq!(jumps_in(&html, line_with("for j in")).len(), 1);
    assert_eq!(html.matches("class=\"j\"").count(), 3);
}

#[test]
fn a_page_has_the_source_and_no_outside_parts() {
    let html = page("source");
    assert_eq!(
        html.matches("<span class=\"l").count(),
        source().lines().count()
    );
    for outside in ["src=", "http:", "https:", "url(", "@import", "<link"] {
        assert!(!html.contains(outside), "{outside}");
    }
    // The text between the marks is the source.
    let start = html.find("<pre id=\"source\">").expect("the source") + "<pre id=\"source\">".len();
    let marked = &html[start..start + html[start..].find("</pre>").expect("its end")];
    let mut text = String::new();
    let mut rest = marked;
    while let Some(open) = rest.find('<') {
        text.push_str(&rest[..open]);
        rest = &rest[open + rest[open..].find('>').expect("its end") + 1..];
    }
    text.push_str(rest);
    let text = text
        .replace("&lt;", "<")
        .replace("&gt;", ">")
        .replace("&quot;", "\"")
        .replace("&amp;", "&");
    assert_eq!(text, source());
}

#[test]
fn hostile_texts_are_written_as_they_are() {
    let file = env::temp_dir().join(format!("hir-report-hostile-{}.rs", std::process::id()));
    let text = "fn f(a: &str) {\n    let x = \"</pre><script>alert(1)</script><!--\"; // <b>&amp;</b> \u{2028} \u{202e}\n    \
                let y = r#\"\"'><img src=x onerror=alert(1)>\"#;\n    println!(\"</script>{}\", \"<!--\"); x(y, a, x)\n}\n";
    fs::write(&file, text).expect("a file");
    let html = page_of(&file, "hostile");
    fs::remove_file(&file).expect("the file is there");
    assert_eq!(html.matches("<script").count(), 3);
    assert_eq!(html.matches("</script>").count(), 3);
    for element in ["<img", "<b>", "<!--", "<iframe"] {
        assert!(!html.contains(element), "{element}");
    }
    assert_eq!(html.matches("<pre").count(), html.matches("</pre>").count());
    assert!(html.contains("&lt;/pre&gt;&lt;script&gt;alert(1)&lt;/script&gt;&lt;!--"));
}

fn has(program: &str) -> bool {
    Command::new(program)
        .arg("--version")
        .output()
        .is_ok_and(|output| output.status.success())
}

/// The script of the pages says of 400 renames what the store says: where Node runs it.
#[test]
fn a_page_says_of_renames_what_the_store_says() {
    if !has("node") || !has("python3") {
        eprintln!("not compared: node or python3 is missing");
        return;
    }
    let output = Command::new(Path::new(env!("CARGO_MANIFEST_DIR")).join("page-against-store"))
        .arg(env!("CARGO_BIN_EXE_hir-report"))
        .args([data("names.rs"), data("renames.rs"), data("frames.rs")])
        .args(["--count", "150"])
        .output()
        .expect("the script runs");
    let said = String::from_utf8_lossy(&output.stdout).into_owned()
        + &String::from_utf8_lossy(&output.stderr);
    assert!(output.status.success(), "{said}");
    assert!(said.starts_with("450 renames ("), "{said}");
    for verdict in [
        " Captures",
        " Hidden",
        " SameFrame",
        " InConstant",
        " IsSelf",
        " accepted",
    ] {
        assert!(said.contains(verdict), "{verdict}: {said}");
    }
}
