//! Compares the C library of the station with a second implementation of document 01 and of document 02, its Req 01 to 07
//! and of Req 08 the memory and Start. See tests/README.md.

#[cfg(test)]
mod base;
#[cfg(test)]
mod bench;
mod call;
mod card;
#[cfg(test)]
mod cells;
#[cfg(test)]
mod channels;
mod compare;
mod damage;
mod draft;
mod generator;
mod image;
mod ledger;
#[cfg(test)]
mod line;
mod lists;
#[cfg(test)]
mod modes;
#[cfg(test)]
mod one_sided;
mod outcome;
mod random;
#[cfg(test)]
mod repeats;
mod retries;
mod systematic;
mod telegram;
#[cfg(test)]
mod urgent;
mod vectors;
mod watchdog;
mod window;

use std::path::Path;
use std::process::ExitCode;
use std::time::Instant;

const LISTS: u64 = 900;
const LENGTH: usize = 3000;

const USAGE: &str =
    "usage: compare --vectors DIR           lists of calls in files, NAME.in and NAME.out
       compare --systematic            every octet, every place, every value
       compare --lists SEED [COUNT]    generated lists and damaged memories
       compare --print SEED NUMBER [LENGTH]   one generated list, as lines of a NAME.in
       compare --answers FILE.in       the second implementation's answers to a list
";

/// What a command came to: agreement, a difference, or input that could not be used.
enum End {
    Good,
    Difference,
    BadInput(String),
}

fn main() -> ExitCode {
    let arguments: Vec<String> = std::env::args().skip(1).collect();
    let words: Vec<&str> = arguments.iter().map(String::as_str).collect();
    match run(&words) {
        End::Good => ExitCode::SUCCESS,
        End::Difference => ExitCode::from(1),
        End::BadInput(message) => {
            eprint!("{message}");
            ExitCode::from(2)
        }
    }
}

fn run(words: &[&str]) -> End {
    match words {
        ["--vectors", folder] => run_vectors(Path::new(folder)),
        ["--systematic"] => run_systematic(),
        ["--lists", seed] => with_numbers(&[seed], |numbers| run_lists(numbers[0], LISTS)),
        ["--lists", seed, count] => {
            with_numbers(&[seed, count], |numbers| run_lists(numbers[0], numbers[1]))
        }
        ["--print", seed, number] => with_numbers(&[seed, number], |numbers| {
            print_list(numbers[0], numbers[1], LENGTH)
        }),
        ["--print", seed, number, length] => with_numbers(&[seed, number, length], |numbers| {
            print_list(numbers[0], numbers[1], numbers[2] as usize)
        }),
        ["--answers", file] => print_answers(Path::new(file)),
        _ => End::BadInput(USAGE.into()),
    }
}

fn with_numbers(words: &[&str], run: impl Fn(&[u64]) -> End) -> End {
    let numbers: Result<Vec<u64>, String> = words
        .iter()
        .map(|word| word.parse().map_err(|_| word.to_string()))
        .collect();
    match numbers {
        Ok(numbers) => run(&numbers),
        Err(word) => End::BadInput(format!("'{word}' is no number\n{USAGE}")),
    }
}

fn run_vectors(folder: &Path) -> End {
    let summary = vectors::run(folder);
    for report in &summary.differences {
        println!("{report}");
    }
    println!(
        "vectors: {} lists with {} calls, {} with a difference",
        summary.lists,
        summary.calls,
        summary.differences.len()
    );
    if !summary.bad_input.is_empty() {
        return End::BadInput(summary.bad_input.join("\n") + "\n");
    }
    match summary.differences.is_empty() {
        true => End::Good,
        false => End::Difference,
    }
}

fn run_systematic() -> End {
    let begun = Instant::now();
    match systematic::run(lists::processors()) {
        Ok(calls) => {
            let seconds = begun.elapsed().as_secs_f32();
            println!("systematic: {calls} calls, no difference ({seconds:.0} s)");
            End::Good
        }
        Err(report) => {
            println!("{report}");
            End::Difference
        }
    }
}

fn run_lists(seed: u64, lists: u64) -> End {
    let begun = Instant::now();
    let plan = lists::Plan {
        seed,
        lists,
        length: LENGTH,
    };
    let tally = match lists::run(plan) {
        Ok(tally) => tally,
        Err(report) => {
            println!("{report}");
            return End::Difference;
        }
    };
    let never = tally.never_reached();
    print!("{}", tally.table());
    println!(
        "seed {seed}: {lists} lists of {LENGTH} calls, no difference, {} outcomes never reached ({:.0} s)",
        never.len(),
        begun.elapsed().as_secs_f32()
    );
    for name in &never {
        println!("never reached: {name}");
    }
    match never.is_empty() {
        true => End::Good,
        false => End::Difference,
    }
}

fn print_list(seed: u64, number: u64, length: usize) -> End {
    for call in generator::list(seed, number, length) {
        println!("{call}");
    }
    End::Good
}

fn print_answers(file: &Path) -> End {
    match vectors::answers(file) {
        Ok(answers) => {
            print!("{answers}");
            End::Good
        }
        Err(bad_lines) => End::BadInput(bad_lines.join("\n") + "\n"),
    }
}
