//! Lists of calls in files: NAME.in holds the calls, NAME.out the answers. Both implementations run every list.
//!
//! A file that cannot be used is reported with its line and does not keep the others from being run.

use crate::call::{self, Call};
use crate::card::Card;
use crate::compare::answered;
use crate::ledger::Station;
use crate::random::Random;
use std::collections::BTreeSet;
use std::fs;
use std::path::{Path, PathBuf};

/// How many calls before a wrong answer are shown.
const RECENT: usize = 20;

/// What running a folder came to.
#[derive(Default)]
pub struct Summary {
    pub lists: usize,
    pub calls: usize,
    /// Wrong answers, one report for each list.
    pub differences: Vec<String>,
    /// Files that could not be used.
    pub bad_input: Vec<String>,
}

struct Line {
    number: usize,
    call: Call,
}

pub fn run(folder: &Path) -> Summary {
    let mut summary = Summary::default();
    let names = match names(folder) {
        Ok(names) => names,
        Err(message) => {
            summary.bad_input.push(message);
            return summary;
        }
    };
    if names.is_empty() {
        let message = format!("{}: holds no list (NAME.in)", folder.display());
        summary.bad_input.push(message);
    }
    for name in names {
        run_list(&name, &mut summary);
    }
    summary
}

/// The lists of a folder, each as a path without its ending; a .out without its .in counts too, to be reported.
fn names(folder: &Path) -> Result<BTreeSet<PathBuf>, String> {
    let unreadable = |error| format!("{}: {error}", folder.display());
    let mut names = BTreeSet::new();
    for entry in fs::read_dir(folder).map_err(unreadable)? {
        let path = entry.map_err(unreadable)?.path();
        let ending = path.extension().and_then(|ending| ending.to_str());
        if matches!(ending, Some("in" | "out")) {
            names.insert(path.with_extension(""));
        }
    }
    Ok(names)
}

fn run_list(name: &Path, summary: &mut Summary) {
    let calls_file = with_ending(name, "in");
    let answers_file = with_ending(name, "out");
    let calls = read_calls(&calls_file);
    let answers = read_answers(&answers_file);
    match (calls, answers) {
        (Ok(calls), Ok(answers)) if calls.len() == answers.len() => {
            summary.lists += 1;
            summary.calls += calls.len();
            if let Err(report) = compare(&calls_file, &calls, &answers) {
                summary.differences.push(report);
            }
        }
        (Ok(calls), Ok(answers)) => summary.bad_input.push(format!(
            "{}: {} answers for {} calls (the last call is in line {} of {})",
            answers_file.display(),
            answers.len(),
            calls.len(),
            calls.last().map_or(0, |line| line.number),
            calls_file.display()
        )),
        (calls, answers) => {
            summary.bad_input.extend(calls.err().unwrap_or_default());
            summary.bad_input.extend(answers.err().unwrap_or_default());
        }
    }
}

/// `with_extension` would take a dot within the name for the beginning of an ending.
fn with_ending(name: &Path, ending: &str) -> PathBuf {
    let mut file = name.as_os_str().to_os_string();
    file.push(".");
    file.push(ending);
    file.into()
}

fn read_file(file: &Path) -> Result<String, Vec<String>> {
    fs::read_to_string(file).map_err(|error| vec![format!("{}: {error}", file.display())])
}

/// The calls of a file, or all its bad lines.
fn read_calls(file: &Path) -> Result<Vec<Line>, Vec<String>> {
    let text = read_file(file)?;
    let mut calls = Vec::new();
    let mut bad_lines = Vec::new();
    for (number, line) in (1..).zip(text.lines()) {
        match call::parse(line) {
            Ok(Some(call)) => calls.push(Line { number, call }),
            Ok(None) => {}
            Err(message) => bad_lines.push(format!("{}:{number}: {message}", file.display())),
        }
    }
    if calls.is_empty() && bad_lines.is_empty() {
        bad_lines.push(format!("{}: holds no call", file.display()));
    }
    match bad_lines.is_empty() {
        true => Ok(calls),
        false => Err(bad_lines),
    }
}

fn read_answers(file: &Path) -> Result<Vec<i64>, Vec<String>> {
    let text = read_file(file)?;
    let mut answers = Vec::new();
    let mut bad_lines = Vec::new();
    for (number, line) in (1..).zip(text.lines()) {
        let line = line.trim();
        if line.is_empty() || line.starts_with('#') {
            continue;
        }
        match line.parse() {
            Ok(answer) => answers.push(answer),
            Err(_) => bad_lines.push(format!(
                "{}:{number}: '{line}' is no answer: a decimal number, a refusal negated",
                file.display()
            )),
        }
    }
    match bad_lines.is_empty() {
        true => Ok(answers),
        false => Err(bad_lines),
    }
}

fn compare(file: &Path, calls: &[Line], answers: &[i64]) -> Result<(), String> {
    let mut station = Station::default();
    let mut card = Card::new();
    let mut random = Random::new(1);
    for (at, (line, expected)) in calls.iter().zip(answers).enumerate() {
        let (ledger, _) = station.answer(&line.call);
        let library = card.answer(&line.call, &mut random);
        if ledger != *expected || library != Ok(*expected) {
            let library = library.map_or_else(|misdeed| misdeed, answered);
            return Err(format!(
                "DIFFERENCE in {}:{}: {}\n  the file says {expected}\n  the second implementation {}\n  \
                 the C library {library}\nthe calls before it, with the file's answers:\n{}",
                file.display(),
                line.number,
                line.call,
                answered(ledger),
                recent(&calls[..at], answers)
            ));
        }
    }
    Ok(())
}

fn recent(calls: &[Line], answers: &[i64]) -> String {
    let first = calls.len().saturating_sub(RECENT);
    let lines = calls.iter().zip(answers).skip(first);
    lines
        .map(|(line, answer)| format!("  {:>6}  {}  ->  {answer}\n", line.number, line.call))
        .collect()
}

/// The second implementation's answers to the calls of a file, one a line: the way to a new NAME.out.
pub fn answers(file: &Path) -> Result<String, Vec<String>> {
    let calls = read_calls(file)?;
    let mut station = Station::default();
    Ok(calls
        .iter()
        .map(|line| format!("{}\n", station.answer(&line.call).0))
        .collect())
}
