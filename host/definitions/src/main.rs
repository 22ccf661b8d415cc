//! Holds the definitions in crates/*/specs against the oracle. See `options::USAGE`.

use std::path::{Path, PathBuf};
use std::process::ExitCode;

mod check;
mod chosen;
mod files;
mod generated;
mod module;
mod options;
mod question;
mod said;
mod scratch;
mod value;

use check::{Failure, Given};
use options::Options;
use question::Case;
use value::Value;

/// The first word is the repository's folder, which the script gives.
fn main() -> ExitCode {
    let mut words = std::env::args().skip(1);
    let repository = words.next().map(PathBuf::from);
    let options = options::parse(words);
    let done = options.and_then(|options| {
        let repository = repository.ok_or("the repository's folder is not given")?;
        run(&repository, &options)
    });
    match done {
        Ok(true) => ExitCode::SUCCESS,
        Ok(false) => ExitCode::FAILURE,
        Err(error) => {
            eprintln!("check-definitions: {}", error.trim_end());
            ExitCode::from(2)
        }
    }
}

/// Whether nothing failed.
fn run(repository: &Path, options: &Options) -> Result<bool, String> {
    if let (Some(chosen), Some(out)) = (&options.chosen, &options.out) {
        return chosen::write(chosen, out).map(|()| true);
    }
    let cases = cases(options)?;
    if cases.is_empty() {
        return Err("there is no case to check".to_string());
    }
    let mut scratch = scratch::Scratch::new(repository, options.keep.as_deref())?;
    let failures = check::check(&mut scratch, &cases, options.jobs)?;
    for (number, failure) in &failures {
        report(*number, &cases[*number], failure);
    }
    let passed = cases.len() - failures.len();
    println!("{passed} passed, {} failed", failures.len());
    Ok(failures.is_empty())
}

/// The cases that were asked for, files first.
fn cases(options: &Options) -> Result<Vec<Case>, String> {
    let mut cases = Vec::new();
    for (kind, path) in &options.files {
        let (more, beyond) = files::cases(*kind, path)?;
        let (place, count) = (path.display(), more.len());
        println!("{place}: {count} cases, {beyond} skipped as beyond the reader");
        cases.extend(more);
    }
    if let Some(texts) = options.generate {
        let (more, said) = generated::cases(texts, options.seed);
        println!("{said}");
        cases.extend(more);
    }
    Ok(cases)
}

fn report(number: usize, case: &Case, failure: &Failure) {
    println!("case {number} failed: {}", case.origin);
    println!("  question    {}", case.question.words());
    println!("  expected    {}", case.expected.words());
    println!("  definition  {}", given(&failure.given));
    if let Some(with_room) = &failure.with_room {
        println!("  with room   {}", given(with_room));
    }
    let differs = |value: &Value| *value != case.expected;
    if !failure.given.as_ref().is_ok_and(differs) {
        let reason: String = failure.reason.chars().take(400).collect();
        println!("  not proved  {reason}");
    }
}

fn given(given: &Given) -> String {
    match given {
        Ok(value) => value.words(),
        Err(why) => format!("is not shown: {why}"),
    }
}
