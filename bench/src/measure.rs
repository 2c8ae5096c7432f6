//! Measures both implementations: nanoseconds per trace record, on a few workloads.

use std::hint::black_box;
use std::time::Instant;

use crate::compare::library_line;
use crate::library;
use crate::monitor::{self, Event, Formula, Rack, Watch};
use crate::writing::{advance, always, answered, book, eventually, observe, trace, window};

const TRACE_RECORDS: usize = 2_048;
const REPETITIONS: usize = 15;
const LEAST_SAMPLE_NANOSECONDS: f64 = 3_000_000.0;
const BYTES_OF_A_CELL: usize = 24;
const WIDEST: u64 = 1_000_000_000_000;
const DAY: u64 = 86_400_000_000;

// ---------------------------------------------------------------------------------------------------------------------
// Workloads
// ---------------------------------------------------------------------------------------------------------------------

/// A rule and a trace. The first events, the warm-up, bring the term to its size and are not counted.
struct Workload {
    name: String,
    rule: Formula,
    events: Vec<Event>,
    warm_up: usize,
}

fn cycle(events: &[Event]) -> Vec<Event> {
    events.iter().copied().cycle().take(TRACE_RECORDS).collect()
}

/// Every request is answered by a grant within 10 milliseconds, for a day.
fn grant_rule() -> Workload {
    let rule = answered(window(0, 0, DAY), 0, window(0, 0, 10_000), 1);
    let round = [observe(1), advance(0, 4_000), observe(0), advance(0, 4_000), observe(2), advance(0, 100_000)];
    Workload { name: "grant rule".into(), rule, events: cycle(&round), warm_up: 0 }
}

/// One such rule on each of the eight clocks, all asked at once.
fn all_eight_clocks() -> Workload {
    let limits = [10_000, 1_000, 100, 10, 500, 50, 40, 20];
    let rules = (0..8).map(|clock| {
        let limit = limits[usize::from(clock)];
        answered(window(clock, 0, WIDEST), clock, window(clock, 0, limit), 8 + clock)
    });
    let mut round = vec![observe(0x00FF)];
    round.extend((0..8).map(|clock| advance(clock, 5 + u64::from(clock))));
    round.push(observe(0xFF00));
    Workload { name: "all eight clocks".into(), rule: Formula::All(rules.collect()), events: cycle(&round), warm_up: 0 }
}

/// Windows three deep: always some stretch of quiet is found soon.
fn nested_windows(stretch: u64) -> Workload {
    let quiet = always(window(0, 0, stretch), Formula::NotMark(1));
    let rule = always(window(0, 0, WIDEST), eventually(window(0, 0, 1_000), quiet));
    let warm_up = 2 * (stretch as usize + 2);
    let name = "nested windows".into();
    Workload { name, rule, events: cycle(&[observe(0), advance(0, 1)]), warm_up }
}

/// A row of inner windows, all open at once. Each has two cells, so with the outer one there are one more or less than
/// `cells` after an observation and after an advance, in turn.
fn row_of_windows(cells: usize) -> Workload {
    let windows = cells / 2;
    let inner = always(window(0, 0, windows as u64 - 1), Formula::NotMark(1));
    let rule = always(window(0, 0, WIDEST), inner);
    let name = "row of windows".into();
    Workload { name, rule, events: cycle(&[observe(0), advance(0, 1)]), warm_up: 2 * windows }
}

/// Observations that open one window each, and then advances that settle nothing.
fn advances_only(observations: usize, clock: u8) -> Workload {
    let rule = always(window(0, 0, WIDEST), eventually(window(0, 0, WIDEST), Formula::Mark(1)));
    let mut events = vec![observe(0); observations];
    events.resize(TRACE_RECORDS, advance(clock, 1));
    let name = if clock == 0 { "the windows' clock" } else { "another clock" };
    Workload { name: name.into(), rule, events, warm_up: observations }
}

impl Workload {
    fn counted(&self) -> usize {
        self.events.len() - self.warm_up
    }

    /// The number of cells after a counted event, on the average.
    fn average_cells(&self) -> f64 {
        let mut watch = Watch::new(&self.rule, Rack);
        let mut cells = 0;
        for (at, &event) in self.events.iter().enumerate() {
            watch = watch.follow(event).unwrap_or_else(|number| panic!("refused={number} record={at}"));
            if at >= self.warm_up {
                cells += watch.term().cells();
            }
        }
        cells as f64 / self.counted() as f64
    }
}

// ---------------------------------------------------------------------------------------------------------------------
// Timing
// ---------------------------------------------------------------------------------------------------------------------

/// Nanoseconds that the two implementations took.
#[derive(Clone, Copy)]
struct Times {
    boxed: f64,
    library: f64,
}

impl Times {
    fn ratio(self) -> f64 {
        self.library / self.boxed
    }
}

/// Nanoseconds of one call, over as many calls as asked.
fn sample(call: &mut dyn FnMut(), calls: usize) -> f64 {
    let start = Instant::now();
    for _ in 0..calls {
        call();
    }
    start.elapsed().as_nanos() as f64 / calls as f64
}

/// So many calls that a sample takes long enough to be measured.
fn calls_in_a_sample(call: &mut dyn FnMut()) -> usize {
    call();
    let once = sample(call, 1).max(1.0);
    (LEAST_SAMPLE_NANOSECONDS / once).ceil().max(1.0) as usize
}

/// The best time of each call. Their samples take turns, so that both meet the same disturbances.
fn best_of_both(first: &mut dyn FnMut(), second: &mut dyn FnMut()) -> (f64, f64) {
    let (first_calls, second_calls) = (calls_in_a_sample(first), calls_in_a_sample(second));
    let mut best = (f64::INFINITY, f64::INFINITY);
    for _ in 0..REPETITIONS {
        best.0 = best.0.min(sample(first, first_calls));
        best.1 = best.1.min(sample(second, second_calls));
    }
    best
}

fn time_of_a_run(book: &[u8], trace: &[u8]) -> Times {
    let mut out = [0; 128];
    let mut run_boxed = || {
        black_box(monitor::run(black_box(book), black_box(trace)));
    };
    let mut run_library = || {
        black_box(library::run_into(black_box(book), black_box(trace), &mut out));
    };
    let (boxed, library) = best_of_both(&mut run_boxed, &mut run_library);
    Times { boxed, library }
}

/// Time per counted record: the whole run less the warm-up, which loads the book too.
fn time_per_record(workload: &Workload) -> Times {
    let book = book(&workload.rule);
    let whole_trace = trace(&workload.events);
    let warm_up_trace = trace(&workload.events[..workload.warm_up]);
    expect_undecided(workload, &book, &whole_trace);
    let whole = time_of_a_run(&book, &whole_trace);
    let warm_up = time_of_a_run(&book, &warm_up_trace);
    let counted = workload.counted() as f64;
    Times { boxed: (whole.boxed - warm_up.boxed) / counted, library: (whole.library - warm_up.library) / counted }
}

/// A workload that is refused or decided would measure nothing.
fn expect_undecided(workload: &Workload, book: &[u8], trace: &[u8]) {
    let boxed = monitor::run(book, trace);
    assert!(boxed.starts_with("verdict=undecided"), "{}: {boxed}", workload.name);
    assert_eq!(boxed, library_line(book, trace), "{}", workload.name);
}

/// Nanoseconds that copying so many bytes takes.
fn time_of_a_copy(bytes: usize) -> f64 {
    let from = vec![1u8; bytes];
    let mut to = vec![0u8; bytes];
    let mut copy = || {
        black_box(to.as_mut_slice()).copy_from_slice(black_box(&from));
    };
    let calls = calls_in_a_sample(&mut copy);
    (0..REPETITIONS).map(|_| sample(&mut copy, calls)).fold(f64::INFINITY, f64::min)
}

// ---------------------------------------------------------------------------------------------------------------------
// Tables
// ---------------------------------------------------------------------------------------------------------------------

pub fn measure() {
    let library = library::name();
    println!("nanoseconds, best of {REPETITIONS}; \"{library}\" is the second implementation\n");
    print_workloads(library);
    print_growth(library);
    print_advances(library);
    print_loading(library);
}

fn print_workloads(library: &str) {
    println!("time per trace record");
    println!(
        "{:<20} {:>7} {:>8} {:>10} {:>10} {:>14}",
        "workload", "cells", "records", "boxed", library, "library/boxed"
    );
    for workload in [grant_rule(), all_eight_clocks(), nested_windows(8), nested_windows(29)] {
        let times = time_per_record(&workload);
        println!(
            "{:<20} {:>7.0} {:>8} {:>10.1} {:>10.1} {:>14.2}",
            workload.name,
            workload.average_cells(),
            workload.counted(),
            times.boxed,
            times.library,
            times.ratio()
        );
    }
}

fn print_growth(library: &str) {
    println!("\ngrowth with cells, time per trace record and per cell of it (a row of windows)");
    println!(
        "{:<20} {:>10} {:>10} {:>14} {:>12} {:>16}",
        "cells", "boxed", library, "library/boxed", "boxed/cell", "library/cell"
    );
    for cells in [10, 100, 1_000] {
        let workload = row_of_windows(cells);
        let average = workload.average_cells();
        let times = time_per_record(&workload);
        println!(
            "{:<20.0} {:>10.1} {:>10.1} {:>14.2} {:>12.2} {:>16.2}",
            average,
            times.boxed,
            times.library,
            times.ratio(),
            times.boxed / average,
            times.library / average
        );
    }
}

fn print_advances(library: &str) {
    println!("\nan advance that settles nothing, and copying {BYTES_OF_A_CELL} bytes for each cell");
    println!(
        "{:<20} {:>7} {:>10} {:>10} {:>10} {:>12} {:>13}",
        "advance of", "cells", "copy", "boxed", library, "boxed/copy", "library/copy"
    );
    for (observations, clock) in [(50, 0), (500, 0), (50, 1), (500, 1)] {
        let workload = advances_only(observations, clock);
        let cells = workload.average_cells();
        let copy = time_of_a_copy(BYTES_OF_A_CELL * cells as usize);
        let times = time_per_record(&workload);
        println!(
            "{:<20} {:>7.0} {:>10.1} {:>10.1} {:>10.1} {:>12.2} {:>13.2}",
            workload.name,
            cells,
            copy,
            times.boxed,
            times.library,
            times.boxed / copy,
            times.library / copy
        );
    }
}

fn print_loading(library: &str) {
    println!("\nan empty trace: loading the book and writing the line, time per call");
    println!("{:<20} {:>7} {:>10} {:>10} {:>14}", "book of", "bytes", "boxed", library, "library/boxed");
    for workload in [grant_rule(), all_eight_clocks(), nested_windows(8)] {
        let book = book(&workload.rule);
        let times = time_of_a_run(&book, &[]);
        println!(
            "{:<20} {:>7} {:>10.1} {:>10.1} {:>14.2}",
            workload.name,
            book.len(),
            times.boxed,
            times.library,
            times.ratio()
        );
    }
}
