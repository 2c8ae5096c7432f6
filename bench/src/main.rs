//! Compares the monitor's static library with an implementation of the same documents in plain Rust.

mod compare;
mod damage;
mod library;
mod measure;
mod monitor;
mod random;
#[cfg(test)]
mod worked_runs;
mod writing;

use std::env;
use std::fs;
use std::process::ExitCode;

const USAGE: &str = "usage:
  bench compare [SEED] [COUNT] [FIRST]   compare on COUNT random pairs of a book and a trace, from pair FIRST on
  bench measure                          measure both implementations
  bench run BOOK TRACE                   print the line of both for two files";

fn main() -> ExitCode {
    let arguments: Vec<String> = env::args().skip(1).collect();
    let words: Vec<&str> = arguments.iter().map(String::as_str).collect();
    let done = match words.as_slice() {
        ["compare", numbers @ ..] if numbers.len() <= 3 => compare_pairs(numbers),
        ["measure"] => {
            measure::measure();
            Ok(true)
        }
        ["run", book, trace] => run_files(book, trace),
        _ => Err(USAGE.to_string()),
    };
    match done {
        Ok(true) => ExitCode::SUCCESS,
        Ok(false) => ExitCode::from(1),
        Err(message) => {
            eprintln!("{message}");
            ExitCode::from(2)
        }
    }
}

fn compare_pairs(numbers: &[&str]) -> Result<bool, String> {
    let number = |at: usize, usual: u64| match numbers.get(at) {
        Some(word) => word.parse().map_err(|_| format!("{word} is no number\n{USAGE}")),
        None => Ok(usual),
    };
    Ok(compare::compare(number(0, 1)?, number(1, 20_000)?, number(2, 0)?))
}

/// Prints both lines. Answers whether they are equal.
fn run_files(book: &str, trace: &str) -> Result<bool, String> {
    let read = |path: &str| fs::read(path).map_err(|error| format!("{path}: {error}"));
    let (book, trace) = (read(book)?, read(trace)?);
    let boxed = monitor::run(&book, &trace);
    let library = compare::library_line(&book, &trace);
    print!("boxed:   {boxed}library: {library}");
    Ok(boxed == library)
}
