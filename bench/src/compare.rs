//! Compares the library with the boxed monitor on random books and traces.

use std::collections::BTreeMap;
use std::fs;
use std::io;

use crate::library;
use crate::monitor;
use crate::random::{Random, pair};

const LONGEST_LINE: usize = 128;
const UNTOUCHED: u8 = 0xA5;
const OUTCOMES: [&str; 13] = [
    "verdict=true",
    "verdict=false",
    "verdict=undecided",
    "refused=1",
    "refused=2",
    "refused=3",
    "refused=4",
    "refused=5",
    "refused=6",
    "refused=8",
    "refused=9",
    "refused=10",
    "refused=11",
];
const CELL_RANGES: [(usize, usize); 6] = [(0, 0), (1, 1), (2, 9), (10, 99), (100, 499), (500, 1_024)];

/// The line of the library, in a buffer that is long enough.
pub fn library_line(book: &[u8], trace: &[u8]) -> String {
    let mut out = [UNTOUCHED; LONGEST_LINE];
    let length = library::run_into(book, trace, &mut out);
    String::from_utf8_lossy(&out[..length]).into_owned()
}

/// What is wrong with the library's use of a buffer that just fits the line, or is one byte too short for it.
fn buffer_fault(book: &[u8], trace: &[u8], line: &str) -> Option<&'static str> {
    let mut fitting = vec![UNTOUCHED; line.len()];
    if library::run_into(book, trace, &mut fitting) != line.len() || fitting != line.as_bytes() {
        return Some("a buffer that just fits is not filled with the line");
    }
    let mut short = vec![UNTOUCHED; line.len() - 1];
    if library::run_into(book, trace, &mut short) != 0 {
        return Some("a buffer that is too short is not answered with 0");
    }
    short.iter().any(|&byte| byte != UNTOUCHED).then_some("a buffer that is too short is changed")
}

/// How often each outcome occurred.
#[derive(Default)]
struct Tally {
    outcomes: BTreeMap<String, usize>,
    cells: BTreeMap<(usize, usize), usize>,
}

impl Tally {
    fn count(&mut self, line: &str) {
        let outcome = line.split_whitespace().next().unwrap_or("no line");
        *self.outcomes.entry(outcome.to_string()).or_default() += 1;
        if let Some(cells) = cells_in(line) {
            let range = CELL_RANGES.into_iter().find(|&(low, high)| (low..=high).contains(&cells));
            *self.cells.entry(range.unwrap_or((cells, cells))).or_default() += 1;
        }
    }

    fn print(&self) {
        println!("{:<20} {:>10}", "outcome", "pairs");
        for outcome in OUTCOMES {
            println!("{:<20} {:>10}", outcome, self.outcomes.get(outcome).unwrap_or(&0));
        }
        for (outcome, count) in self.outcomes.iter().filter(|(outcome, _)| !OUTCOMES.contains(&outcome.as_str())) {
            println!("{:<20} {:>10}", outcome, count);
        }
        println!("\n{:<20} {:>10}", "cells at the end", "pairs");
        for ((low, high), count) in &self.cells {
            println!("{:<20} {:>10}", format!("{low} to {high}"), count);
        }
    }
}

/// The number of cells that a line with a verdict ends with.
pub fn cells_in(line: &str) -> Option<usize> {
    line.trim_end().split_once("cells=")?.1.parse().ok()
}

/// Compares pairs number `first` to `first + count - 1` of a seed. Answers whether all were equal.
pub fn compare(seed: u64, count: u64, first: u64) -> bool {
    let mut tally = Tally::default();
    for number in first..first + count {
        let (book, trace) = pair(&mut Random::for_pair(seed, number));
        let boxed = monitor::run(&book, &trace);
        let library = library_line(&book, &trace);
        let checks_buffers = boxed == library && number.is_multiple_of(8);
        let fault = if checks_buffers { buffer_fault(&book, &trace, &boxed) } else { None };
        if boxed != library || fault.is_some() {
            println!("pair {number} of seed {seed} differs, after {} equal pairs", number - first);
            report_difference(&book, &trace, &boxed, &library, fault);
            return false;
        }
        tally.count(&boxed);
        let equal = number - first + 1;
        if equal.is_multiple_of(5_000) {
            eprintln!("{equal} pairs equal so far");
        }
    }
    println!("{count} pairs compared, boxed and {}: all equal\n", library::name());
    tally.print();
    true
}

fn report_difference(book: &[u8], trace: &[u8], boxed: &str, library: &str, fault: Option<&str>) {
    println!("boxed:   {}", boxed.trim_end());
    println!("library: {}", library.trim_end());
    if boxed != library && boxed.trim_end() == library.trim_end() {
        println!("the lines differ in how they end: {boxed:?} and {library:?}");
    }
    if let Some(fault) = fault {
        println!("fault:   {fault}");
    }
    match write_difference(book, trace) {
        Ok(()) => {
            println!("written to difference.book and difference.trace; see `run difference.book difference.trace`")
        }
        Err(error) => println!("the pair cannot be written: {error}"),
    }
}

fn write_difference(book: &[u8], trace: &[u8]) -> io::Result<()> {
    fs::write("difference.book", book)?;
    fs::write("difference.trace", trace)
}
