//! `hir-report FILE.rs.. [OPTION]`: lowers each function of Rust files, asks the proved expression store about them, and reports, function
//! by function: the printed body; the paths of one name that mean no variable; the variables that nothing uses; what each closure captures.
//!
//! - `--html PAGE` writes one page of the file, without outside parts; of several files, where PAGE is a folder, a page of each.
//! - `--rename LINE:COLUMN NAME` writes the file in which the variable that is written or used at this place has another name, or says which
//!   two places are in conflict, with status 1.
//! - `--threads N` handles at most so many files at once; without it as many as the machine has threads.
//! - `--counts` writes only how many functions and nodes there were, and in what time.
//! - `--names` writes each path of one name and the place of the variable that it means, `--outline` also functions and variables, and
//!   `--renames` what changes by each rename that standard input asks for: these are for `against-rustc`, `renames-against-rustc` and
//!   `page-against-store`.
//!
//! Macro calls aren't expanded, and patterns of one name are variables, unless its first letter is upper case.

mod constants;
mod edits;
mod files;
mod findings;
mod functions;
mod html;
mod lower;
mod names;
mod rename;
mod renames;
mod span;
mod text;

use files::Progress;
use findings::{ask, Findings};
use hir_expr_store::lines;
use html::Facts;
use renames::Request;
use std::error::Error;
use std::fmt::Write as _;
use std::io::Write;
use std::num::NonZero;
use std::path::{Path, PathBuf};
use std::process::ExitCode;
use std::time::{Duration, Instant};
use std::{env, fs, io};

/// What is written of the functions.
enum Form {
    Text,
    Counts,
    Names,
    Outline,
    Html(PathBuf),
}

/// What is wanted of a file.
enum Wanted {
    Report(Form),
    Rename(Request),
    Renames,
}

/// What the arguments ask for.
struct Task {
    files: Vec<String>,
    wanted: Wanted,
    threads: Option<NonZero<usize>>,
}

fn task(mut args: impl Iterator<Item = String>) -> Result<Task, String> {
    let mut files = Vec::new();
    let mut wanted = Wanted::Report(Form::Text);
    let mut threads = None;
    while let Some(arg) = args.next() {
        match arg.as_str() {
            "--counts" => wanted = Wanted::Report(Form::Counts),
            "--names" => wanted = Wanted::Report(Form::Names),
            "--outline" => wanted = Wanted::Report(Form::Outline),
            "--renames" => wanted = Wanted::Renames,
            "--rename" => match (args.next(), args.next()) {
                (Some(place), Some(name)) => wanted = Wanted::Rename(Request::of(&place, &name)?),
                _ => return Err(String::from("--rename wants a place and a name")),
            },
            "--html" => {
                let page = args.next().ok_or("--html wants the name of a page")?;
                wanted = Wanted::Report(Form::Html(page.into()));
            }
            "--threads" => {
                let count = args.next().and_then(|count| count.parse().ok());
                threads = Some(count.ok_or("--threads wants a number, 1 at least")?);
            }
            _ if arg.starts_with("--") => return Err(format!("{arg} is no option")),
            _ => files.push(arg),
        }
    }
    if files.is_empty() {
        return Err(String::from("the name of a file is wanted"));
    }
    if files.len() > 1 {
        match &wanted {
            Wanted::Rename(_) | Wanted::Renames => {
                return Err(String::from("a rename is of one file"))
            }
            Wanted::Report(Form::Html(page)) if !page.is_dir() => {
                return Err(format!(
                    "the pages of several files want a folder, and {} is none",
                    page.display()
                ))
            }
            Wanted::Report(_) => {}
        }
    }
    Ok(Task {
        files,
        wanted,
        threads,
    })
}

/// What is said of a function.
struct Function {
    findings: Findings,
    /// Where a page is wanted.
    facts: Option<Facts>,
}

/// A file, and what the store says of its functions.
struct Report {
    source: String,
    functions: Vec<Function>,
    /// The functions whose bodies the store refused: there should be none.
    refused: Vec<String>,
    parse: Duration,
    ask: Duration,
}

impl Report {
    fn findings(&self) -> impl Iterator<Item = &Findings> {
        self.functions.iter().map(|it| &it.findings)
    }
}

fn of_function(
    function: &functions::Function<'_>,
    is_page: bool,
) -> Result<Function, Box<dyn Error>> {
    let lowered = lower::lower(function.signature, function.block)?;
    let facts = is_page.then(|| Facts::of(&lowered)).transpose()?;
    Ok(Function {
        findings: ask(function, lowered)?,
        facts,
    })
}

fn report(file: &str, is_page: bool, progress: &Progress) -> Result<Report, Box<dyn Error>> {
    let source = fs::read_to_string(file).map_err(|error| format!("{file}: {error}"))?;
    let source = String::from(source.strip_prefix(renames::MARK).unwrap_or(&source));
    let start = Instant::now();
    let parsed = renames::parsed(file, &source)?;
    let parse = start.elapsed();
    let start = Instant::now();
    let mut functions = Vec::new();
    let mut refused = Vec::new();
    let found = functions::functions(&parsed);
    progress.found(found.len());
    for function in found {
        match of_function(&function, is_page) {
            Ok(found) => functions.push(found),
            Err(error) => refused.push(format!(
                "{file}:{}: {}: {error}",
                function.place, function.name
            )),
        }
        progress.did_function();
    }
    Ok(Report {
        source,
        functions,
        refused,
        parse,
        ask: start.elapsed(),
    })
}

fn write_counts(file: &str, report: &Report, out: &mut impl Write) -> io::Result<()> {
    let nodes: usize = report.findings().map(|it| it.nodes).sum();
    let names: usize = report.findings().map(|it| it.meanings.len()).sum();
    let unknown: usize = report.findings().map(|it| it.sources.unknown.len()).sum();
    writeln!(
        out,
        "{file}: {} lines, {} functions, {nodes} nodes, {names} names, {unknown} unknown, {} refused; parsed in {} us, asked in {} us",
        report.source.lines().count(),
        report.functions.len(),
        report.refused.len(),
        report.parse.as_micros(),
        report.ask.as_micros(),
    )
}

fn write_text(report: &Report, out: &mut impl Write) -> Result<(), Box<dyn Error>> {
    let mut text = String::new();
    for findings in report.findings() {
        text::write(findings, &mut text)?;
        text.push('\n');
    }
    Ok(out.write_all(text.as_bytes())?)
}

/// Where the page of a file is written: where it is said, or in the folder that is.
fn place_of_page(page: &Path, file: &str) -> PathBuf {
    if page.is_dir() {
        let name: String = file
            .chars()
            .map(|c| if matches!(c, '/' | '\\') { '-' } else { c })
            .collect();
        page.join(format!("{}.html", name.trim_start_matches(['.', '-'])))
    } else {
        page.to_path_buf()
    }
}

fn write_page(file: &str, page: &Path, report: &Report) -> Result<(), Box<dyn Error>> {
    let functions: Vec<_> = report
        .functions
        .iter()
        .filter_map(|it| Some((&it.findings, it.facts.as_ref()?)))
        .collect();
    let page = place_of_page(page, file);
    let text = html::page(file, &report.source, &functions)?;
    Ok(fs::write(&page, text).map_err(|error| format!("{}: {error}", page.display()))?)
}

/// What is written of a file, to both ends, and whether there was nothing to refuse.
#[derive(Default)]
struct Written {
    out: Vec<u8>,
    said: String,
    is_good: bool,
}

impl Written {
    fn write_report(
        &mut self,
        file: &str,
        form: &Form,
        progress: &Progress,
    ) -> Result<(), Box<dyn Error>> {
        let report = report(file, matches!(form, Form::Html(_)), progress)?;
        match form {
            Form::Text => write_text(&report, &mut self.out)?,
            Form::Counts => write_counts(file, &report, &mut self.out)?,
            Form::Names => names::write(report.findings(), &mut self.out)?,
            Form::Outline => names::write_outline(report.findings(), &mut self.out)?,
            Form::Html(page) => write_page(file, page, &report)?,
        }
        for refused in &report.refused {
            writeln!(self.said, "{refused}")?;
        }
        self.is_good = report.refused.is_empty();
        Ok(())
    }

    fn write(
        &mut self,
        file: &str,
        wanted: &Wanted,
        progress: &Progress,
    ) -> Result<(), Box<dyn Error>> {
        match wanted {
            Wanted::Report(form) => self.write_report(file, form, progress)?,
            Wanted::Rename(request) => {
                let source = fs::read_to_string(file)?;
                self.is_good =
                    renames::write_renamed(file, &source, request, &mut self.out, &mut self.said)?;
            }
            Wanted::Renames => {
                let source = fs::read_to_string(file)?;
                renames::write_each(file, &source, io::stdin().lock(), &mut self.out)?;
                self.is_good = true;
            }
        }
        Ok(())
    }

    /// What is written of a file, or why not.
    fn of(file: &str, wanted: &Wanted, progress: &Progress) -> Written {
        let mut written = Written::default();
        if let Err(error) = written.write(file, wanted, progress) {
            written.is_good = false;
            written.said.push_str(&error.to_string());
            written.said.push('\n');
        }
        written
    }
}

fn run(task: &Task) -> ExitCode {
    let mut is_good = true;
    let mut out = io::stdout().lock();
    let taken = files::in_order(
        task.files.len(),
        task.threads,
        |file, progress| Written::of(&task.files[file], &task.wanted, progress),
        |written| {
            is_good &= written.is_good;
            out.write_all(&written.out)?;
            out.flush()?;
            io::stderr().write_all(written.said.as_bytes())
        },
    );
    if let Err(error) = taken {
        eprintln!("{error}");
        is_good = false;
    }
    if is_good {
        ExitCode::SUCCESS
    } else {
        ExitCode::FAILURE
    }
}

/// What the arguments ask for, where there is something to ask.
fn begin() -> Result<Task, String> {
    let task = task(env::args().skip(1))?;
    // Else each function of each file would say it.
    lines::answer("").map_err(|error| error.to_string())?;
    Ok(task)
}

fn main() -> ExitCode {
    match begin() {
        Ok(task) => run(&task),
        Err(error) => {
            eprintln!("hir-report: {error}");
            ExitCode::from(2)
        }
    }
}
