//! `hir-ask-json`: requests in JSON from standard input, one a line or one after the other, and to each a line of JSON on standard output.

mod request;
mod world;

use request::Request;
use serde_json::{json, Deserializer};
use std::io::{self, BufReader, Write};
use std::process::ExitCode;
use world::World;

/// Answers requests until the input ends. Whether each was one.
fn run() -> io::Result<bool> {
    let mut world = World::default();
    let input = BufReader::new(io::stdin().lock());
    let mut output = io::stdout().lock();
    for request in Deserializer::from_reader(input).into_iter::<Request>() {
        let (answer, is_read) = match request {
            Ok(request) => (world.answer(request), true),
            // What comes after something that is no request can't be told from it.
            Err(error) => (json!({ "error": error.to_string() }), false),
        };
        writeln!(output, "{answer}")?;
        output.flush()?;
        if !is_read {
            return Ok(false);
        }
    }
    Ok(true)
}

fn main() -> ExitCode {
    match run() {
        Ok(true) => ExitCode::SUCCESS,
        Ok(false) => ExitCode::from(2),
        Err(error) => {
            eprintln!("hir-ask-json: {error}");
            ExitCode::from(4)
        }
    }
}
