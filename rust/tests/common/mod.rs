//! The rows of `crates/hir_golden/data`: what is built, what is asked, and what comes.

use std::fs;
use std::path::{Path, PathBuf};

/// A row: where it stands, and its lines.
pub struct Row {
    /// Its file and the number of its first line.
    pub place: String,
    /// Its lines, with those of the answers that are wanted.
    pub lines: Vec<String>,
}

fn data() -> PathBuf {
    Path::new(env!("CARGO_MANIFEST_DIR")).join("../crates/hir_golden/data")
}

fn rows_of(path: &Path) -> Vec<Row> {
    let name = path.file_name().unwrap().to_string_lossy();
    let text = fs::read_to_string(path).unwrap();
    let mut rows: Vec<Row> = Vec::new();
    let mut was_title = false;
    for (index, line) in text.split('\n').enumerate() {
        let is_title = line.starts_with('#');
        if is_title && !was_title {
            rows.push(Row {
                place: format!("{name}:{}", index + 1),
                lines: Vec::new(),
            });
        }
        was_title = is_title;
        if let Some(row) = rows.last_mut() {
            row.lines.push(String::from(line));
        }
    }
    rows
}

/// All rows of all files, in the order of the files' names.
pub fn rows() -> Vec<Row> {
    let mut paths: Vec<PathBuf> = fs::read_dir(data())
        .unwrap()
        .map(|entry| entry.unwrap().path())
        .filter(|path| {
            path.extension()
                .is_some_and(|extension| extension == "rows")
        })
        .collect();
    paths.sort();
    paths.iter().flat_map(|path| rows_of(path)).collect()
}

/// Whether a line is of an answer that is wanted.
pub fn is_of_answer(line: &str) -> bool {
    line.starts_with(['=', '!', '|'])
}
