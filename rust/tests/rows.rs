//! Each row of `crates/hir_golden/data`, asked over a session, but for the lines that only golden cases have.

mod common;

use common::{is_of_answer, rows};
use hir_expr_store::lines::{answer, Answer, Session, Status};

/// How often something stands there, and what, behind the mark of a line that stands for more than it has.
fn counted(behind: Option<&str>) -> Option<(u32, &str)> {
    let (count, what) = behind?.split_once(' ')?;
    Some((count.parse().ok()?, what))
}

/// Puts one of those behind the text before which so many came: in it `@K` is the number K and how many these are.
fn push_one(text: &mut String, what: &str, before: u32) {
    let mut parts = what.split('@');
    text.push_str(parts.next().unwrap_or(""));
    for part in parts {
        let behind = part.trim_start_matches(|c: char| c.is_ascii_digit());
        let number: u32 = part[..part.len() - behind.len()].parse().unwrap();
        text.push_str(&(number + before).to_string());
        text.push_str(behind);
    }
}

/// The first words of lines that only golden cases have, and that ask the store: such a line finishes it, as `finish` does.
const PROBES: [&str; 17] = [
    "keep",
    "equal",
    "copies",
    "same-store",
    "same-sources",
    "same-scopes",
    "counted-scopes",
    "scopes-by-tables",
    "counted-root-of",
    "try-children",
    "try-children-without-pats",
    "try-walk-pats",
    "try-bindings-in",
    "try-exprs-in",
    "parens",
    "blocks",
    "path",
];

/// The first words of the others.
const OTHERS: [&str; 3] = ["run", "fault", "beside"];

/// A row as the C call takes it: its text, and of each question the answer that is wanted, where the call has that question.
struct Asked {
    text: String,
    wanted: Vec<Option<String>>,
}

/// The row without the lines that only golden cases have.
fn without_probes(text: &str) -> Asked {
    let mut asked = Asked {
        text: String::new(),
        wanted: Vec::new(),
    };
    let mut answer: Option<String> = None;
    let mut is_ours = true;
    for line in text.split('\n') {
        if is_of_answer(line) {
            answer.get_or_insert_with(String::new).push_str(line);
            answer.as_mut().unwrap().push('\n');
            continue;
        }
        if line.is_empty() || line.starts_with('#') {
            continue;
        }
        asked.end(answer.take(), is_ours);
        let line = line.strip_prefix("again ").unwrap_or(line);
        let word = line.split(' ').next().unwrap_or("");
        if line.starts_with('>') || OTHERS.contains(&word) {
            is_ours = false;
            continue;
        }
        is_ours = !PROBES.contains(&word);
        asked.text.push_str(if is_ours { line } else { "finish" });
        asked.text.push('\n');
        if !is_ours {
            asked.wanted.push(None);
        }
    }
    asked.end(answer, is_ours);
    asked
}

impl Asked {
    /// Adds the answer of the question before, where it had one and the call has it.
    fn end(&mut self, answer: Option<String>, is_ours: bool) {
        if let (Some(answer), true) = (answer, is_ours) {
            self.wanted.push(Some(answer));
        }
    }
}

/// The answers of a text, each with all its lines.
fn split_answers(answers: &str) -> Vec<String> {
    let mut split: Vec<String> = Vec::new();
    for line in answers.split_inclusive('\n') {
        match split.last_mut() {
            Some(answer) if line.starts_with('|') => answer.push_str(line),
            _ => split.push(String::from(line)),
        }
    }
    split
}

/// The answer of a session, as its lines.
fn joined(answer: &Answer) -> String {
    let mut text = String::new();
    let mut mark = if answer.is_refusal { '!' } else { '=' };
    for line in answer.text.split('\n') {
        text.push(mark);
        if !line.is_empty() {
            text.push(' ');
        }
        text.push_str(line);
        text.push('\n');
        mark = '|';
    }
    text
}

/// The text of these lines, with all that they stand for.
fn text_of(lines: &[String]) -> String {
    let mut text = String::new();
    for line in lines {
        if let Some((count, line)) = counted(line.strip_prefix("* ")) {
            for before in 0..count {
                push_one(&mut text, line, before);
                text.push('\n');
            }
        } else if let Some((count, what)) = counted(line.strip_prefix("+ ")) {
            text.pop();
            (0..count).for_each(|before| push_one(&mut text, what, before));
            text.push('\n');
        } else {
            text.push_str(line);
            text.push('\n');
        }
    }
    text
}

#[test]
fn each_row_has_its_answers() {
    let mut differences = Vec::new();
    let mut compared = 0;
    let rows = rows();
    for row in &rows {
        let asked = without_probes(&text_of(&row.lines));
        let outcome = answer(&asked.text).unwrap();
        let is_read = matches!(outcome.status, Status::Answered | Status::Refused(_));
        let came = split_answers(&outcome.answers);
        let agree = came.len() == asked.wanted.len()
            && asked
                .wanted
                .iter()
                .zip(&came)
                .all(|(wanted, came)| wanted.as_ref().is_none_or(|it| it == came));
        if !is_read || !agree {
            differences.push(format!("{}: {:?}", row.place, outcome.status));
        }
        compared += asked.wanted.iter().flatten().count();
    }
    assert!(rows.len() > 1000, "{} rows", rows.len());
    assert!(compared > 3000, "{compared} answers");
    assert!(differences.is_empty(), "{differences:#?}");
}

/// The place after so many of the lines of a text.
fn place_of(text: &str, count: usize) -> usize {
    text.split_inclusive('\n').take(count).map(str::len).sum()
}

#[test]
fn a_session_answers_a_row_in_parts() {
    let mut differences = Vec::new();
    for (number, row) in rows().iter().enumerate() {
        let asked = without_probes(&text_of(&row.lines));
        let cut = place_of(&asked.text, number % (asked.text.lines().count() + 1));
        let (front, rest) = asked.text.split_at(cut);
        let mut session = Session::open().unwrap();
        let mut came = session.ask(front).unwrap();
        came.extend(session.ask(rest).unwrap());
        let agree = came.len() == asked.wanted.len()
            && asked
                .wanted
                .iter()
                .zip(&came)
                .all(|(wanted, came)| wanted.as_ref().is_none_or(|it| *it == joined(came)));
        if !agree {
            differences.push(row.place.clone());
        }
    }
    assert!(differences.is_empty(), "{differences:#?}");
}
