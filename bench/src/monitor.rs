//! A plain runtime monitor with boxed terms, written from the pages in docs/ alone.
//!
//! A book of records is loaded as a formula, a trace is read as events, and what is left of the formula is a term that
//! each event rewrites. Terms are boxed trees; an event consumes the old term and builds the new one.

use std::fmt;

const BOOK_RECORD_BYTES: usize = 24;
const LEAST_BOOK_BYTES: usize = 48;
const MOST_BOOK_BYTES: usize = 1_536;
const TRACE_RECORD_BYTES: usize = 16;
const MOST_TRACE_BYTES: usize = 32_768;
const HIGHEST_MARK: u8 = 31;
const HIGHEST_CLOCK: u8 = 7;
const HIGHEST_UPPER_END: u64 = 1_000_000_000_000;
const MOST_CELLS: usize = 1_024;

// ---------------------------------------------------------------------------------------------------------------------
// Refusals and the line
// ---------------------------------------------------------------------------------------------------------------------

#[derive(Clone, Copy, Debug, PartialEq)]
pub enum Layer {
    Book,
    Trace,
    Watch,
}

#[derive(Clone, Copy, Debug, PartialEq)]
pub struct Refusal {
    pub number: u8,
    pub layer: Layer,
    pub record: usize,
}

#[derive(Clone, Copy, Debug, PartialEq)]
pub enum Verdict {
    True,
    False,
    Undecided,
}

#[derive(Clone, Copy, Debug, PartialEq)]
pub struct Outcome {
    pub verdict: Verdict,
    pub records: usize,
    pub cells: usize,
}

impl fmt::Display for Layer {
    fn fmt(&self, out: &mut fmt::Formatter) -> fmt::Result {
        out.write_str(match self {
            Layer::Book => "book",
            Layer::Trace => "trace",
            Layer::Watch => "watch",
        })
    }
}

impl fmt::Display for Refusal {
    fn fmt(&self, out: &mut fmt::Formatter) -> fmt::Result {
        write!(out, "refused={} layer={} record={}", self.number, self.layer, self.record)
    }
}

impl fmt::Display for Verdict {
    fn fmt(&self, out: &mut fmt::Formatter) -> fmt::Result {
        out.write_str(match self {
            Verdict::True => "true",
            Verdict::False => "false",
            Verdict::Undecided => "undecided",
        })
    }
}

impl fmt::Display for Outcome {
    fn fmt(&self, out: &mut fmt::Formatter) -> fmt::Result {
        write!(out, "verdict={} records={} cells={}", self.verdict, self.records, self.cells)
    }
}

// ---------------------------------------------------------------------------------------------------------------------
// Gauges
// ---------------------------------------------------------------------------------------------------------------------

/// How the amounts of a clock add up. Every clock starts at 0, which reads 0.
pub trait Gauge {
    fn add(&self, clock: u8, total: u64, amount: u64) -> u64;
    fn read(&self, clock: u8, total: u64) -> u64;
}

/// Clocks 0 to 3 are sums, 4 and 5 peaks, the others channels.
pub struct Rack;

impl Gauge for Rack {
    fn add(&self, clock: u8, total: u64, amount: u64) -> u64 {
        match clock {
            0..=3 => total.saturating_add(amount),
            4..=5 => total.max(amount),
            _ => total | amount,
        }
    }

    fn read(&self, clock: u8, total: u64) -> u64 {
        match clock {
            0..=5 => total,
            _ => u64::from(total.count_ones()),
        }
    }
}

/// The number of a clock before any amount, on every gauge here.
const STARTING_NUMBER: u64 = 0;

// ---------------------------------------------------------------------------------------------------------------------
// Formulas
// ---------------------------------------------------------------------------------------------------------------------

#[derive(Clone, Copy, Debug, PartialEq)]
pub struct Window {
    pub clock: u8,
    pub lower: u64,
    pub upper: u64,
}

impl Window {
    fn is_before(&self, reading: u64) -> bool {
        reading < self.lower
    }

    fn is_past(&self, reading: u64) -> bool {
        reading > self.upper
    }
}

#[derive(Clone, Debug, PartialEq)]
pub enum Formula {
    Mark(u8),
    NotMark(u8),
    All(Vec<Formula>),
    Any(Vec<Formula>),
    Next(Box<Formula>),
    Timed(Timed),
}

/// A formula with a window.
#[derive(Clone, Debug, PartialEq)]
pub struct Timed {
    pub window: Window,
    pub shape: Shape,
}

#[derive(Clone, Debug, PartialEq)]
pub enum Shape {
    Until(Box<Formula>, Box<Formula>),
    Release(Box<Formula>, Box<Formula>),
    Eventually(Box<Formula>),
    Always(Box<Formula>),
}

// ---------------------------------------------------------------------------------------------------------------------
// Loading a book
// ---------------------------------------------------------------------------------------------------------------------

struct Record {
    kind: u8,
    mark: u8,
    clock: u8,
    reserved: u8,
    first: usize,
    next: usize,
    lower: u64,
    upper: u64,
}

impl Record {
    fn read(bytes: &[u8]) -> Record {
        Record {
            kind: bytes[0],
            mark: bytes[1],
            clock: bytes[2],
            reserved: bytes[3],
            first: number_of(&bytes[4..6]) as usize,
            next: number_of(&bytes[6..8]) as usize,
            lower: number_of(&bytes[8..16]),
            upper: number_of(&bytes[16..24]),
        }
    }

    fn names_a_mark(&self) -> bool {
        matches!(self.kind, 1 | 2)
    }

    fn has_a_window(&self) -> bool {
        matches!(self.kind, 6..=9)
    }

    fn has_operands(&self) -> bool {
        matches!(self.kind, 3..=9)
    }

    fn has_a_faulty_field(&self) -> bool {
        let highest_mark = if self.names_a_mark() { HIGHEST_MARK } else { 0 };
        let highest_clock = if self.has_a_window() { HIGHEST_CLOCK } else { 0 };
        self.mark > highest_mark
            || self.clock > highest_clock
            || self.reserved != 0
            || (!self.has_operands() && self.first != 0)
            || (!self.has_a_window() && (self.lower != 0 || self.upper != 0))
    }

    fn has_a_faulty_window(&self) -> bool {
        self.has_a_window() && (self.lower > self.upper || self.upper > HIGHEST_UPPER_END)
    }

    fn has_a_faulty_link(&self, own_number: usize, records: usize) -> bool {
        let is_faulty = |link: usize| link != 0 && (link <= own_number || link >= records);
        is_faulty(self.first) || is_faulty(self.next) || (own_number == 1 && self.next != 0)
    }

    fn accepts_operands(&self, count: usize) -> bool {
        match self.kind {
            3 | 4 => count >= 2,
            5 | 8 | 9 => count == 1,
            6 | 7 => count == 2,
            _ => count == 0,
        }
    }

    fn window(&self) -> Window {
        Window { clock: self.clock, lower: self.lower, upper: self.upper }
    }
}

/// The number that some bytes stand for, high byte first.
fn number_of(bytes: &[u8]) -> u64 {
    bytes.iter().fold(0, |number, &byte| number << 8 | u64::from(byte))
}

/// Loads a book. Each condition is decided for the whole book before the next.
pub fn load(book: &[u8]) -> Result<Formula, Refusal> {
    if !is_book_length(book.len()) {
        return Err(Refusal { number: 1, layer: Layer::Book, record: 0 });
    }
    let records: Vec<Record> = book.chunks_exact(BOOK_RECORD_BYTES).map(Record::read).collect();
    let zero_record = book[..BOOK_RECORD_BYTES].iter().all(|&byte| byte == 0);
    refuse_lowest(2, &records, |number, record| match number {
        0 => !zero_record,
        _ => !matches!(record.kind, 1..=9),
    })?;
    refuse_lowest(3, &records, |_, record| record.has_a_faulty_field())?;
    refuse_lowest(4, &records, |_, record| record.has_a_faulty_window())?;
    let times_named = times_named(&records);
    refuse_lowest(5, &records, |number, record| {
        record.has_a_faulty_link(number, records.len()) || (number >= 2 && times_named[number] != 1)
    })?;
    refuse_lowest(6, &records, |_, record| !record.accepts_operands(operands(&records, record).len()))?;
    Ok(formula_of(&records, 1))
}

fn is_book_length(length: usize) -> bool {
    length.is_multiple_of(BOOK_RECORD_BYTES) && (LEAST_BOOK_BYTES..=MOST_BOOK_BYTES).contains(&length)
}

/// Refuses with the lowest record that breaks a condition, if any does.
fn refuse_lowest(number: u8, records: &[Record], breaks: impl Fn(usize, &Record) -> bool) -> Result<(), Refusal> {
    let broken = records.iter().enumerate().position(|(at, record)| breaks(at, record));
    broken.map_or(Ok(()), |record| Err(Refusal { number, layer: Layer::Book, record }))
}

/// How many links name each record. Faulty links count too.
fn times_named(records: &[Record]) -> Vec<usize> {
    let mut times = vec![0; records.len()];
    for link in records.iter().flat_map(|record| [record.first, record.next]) {
        if link != 0 && link < records.len() {
            times[link] += 1;
        }
    }
    times
}

/// The numbers of a record's operands, in order. All links lead forward by now, so the chain ends.
fn operands(records: &[Record], record: &Record) -> Vec<usize> {
    let mut numbers = Vec::new();
    let mut number = record.first;
    while number != 0 {
        numbers.push(number);
        number = records[number].next;
    }
    numbers
}

fn formula_of(records: &[Record], number: usize) -> Formula {
    let record = &records[number];
    let mut operands = operands(records, record).into_iter().map(|operand| formula_of(records, operand));
    if !record.has_a_window() {
        return match record.kind {
            1 => Formula::Mark(record.mark),
            2 => Formula::NotMark(record.mark),
            3 => Formula::All(operands.collect()),
            4 => Formula::Any(operands.collect()),
            _ => Formula::Next(Box::new(operands.next().expect("next has an operand"))),
        };
    }
    let mut operand = || Box::new(operands.next().expect("the number of operands is right"));
    let shape = match record.kind {
        6 => Shape::Until(operand(), operand()),
        7 => Shape::Release(operand(), operand()),
        8 => Shape::Eventually(operand()),
        _ => Shape::Always(operand()),
    };
    Formula::Timed(Timed { window: record.window(), shape })
}

// ---------------------------------------------------------------------------------------------------------------------
// Terms and the rewriting
// ---------------------------------------------------------------------------------------------------------------------

/// What is left of a rule. No constant stands inside `Both` or `Either`.
#[derive(Debug, PartialEq)]
pub enum Term<'r> {
    True,
    False,
    Fresh(&'r Formula),
    Waiting(&'r Timed, u64),
    Both(Box<Term<'r>>, Box<Term<'r>>),
    Either(Box<Term<'r>>, Box<Term<'r>>),
}

fn both_of<'r>(left: Term<'r>, right: Term<'r>) -> Term<'r> {
    match (left, right) {
        (Term::False, _) | (_, Term::False) => Term::False,
        (Term::True, other) | (other, Term::True) => other,
        (left, right) => Term::Both(Box::new(left), Box::new(right)),
    }
}

fn either_of<'r>(left: Term<'r>, right: Term<'r>) -> Term<'r> {
    match (left, right) {
        (Term::True, _) | (_, Term::True) => Term::True,
        (Term::False, other) | (other, Term::False) => other,
        (left, right) => Term::Either(Box::new(left), Box::new(right)),
    }
}

fn constant<'r>(value: bool) -> Term<'r> {
    if value { Term::True } else { Term::False }
}

fn has(marks: u32, mark: u8) -> bool {
    marks >> mark & 1 == 1
}

impl<'r> Term<'r> {
    /// Every part other than true and false is one cell.
    pub fn cells(&self) -> usize {
        match self {
            Term::True | Term::False => 0,
            Term::Fresh(_) | Term::Waiting(_, _) => 1,
            Term::Both(left, right) | Term::Either(left, right) => 1 + left.cells() + right.cells(),
        }
    }

    pub fn verdict(&self) -> Verdict {
        match self {
            Term::True => Verdict::True,
            Term::False => Verdict::False,
            _ => Verdict::Undecided,
        }
    }

    fn advanced(self, gauge: &impl Gauge, clock: u8, amount: u64) -> Term<'r> {
        match self {
            Term::Waiting(timed, number) if timed.window.clock == clock => {
                timed.waiting_at(gauge, gauge.add(clock, number, amount))
            }
            Term::Both(left, right) => {
                both_of(left.advanced(gauge, clock, amount), right.advanced(gauge, clock, amount))
            }
            Term::Either(left, right) => {
                either_of(left.advanced(gauge, clock, amount), right.advanced(gauge, clock, amount))
            }
            unmoved => unmoved,
        }
    }

    fn observed(self, gauge: &impl Gauge, marks: u32) -> Term<'r> {
        match self {
            Term::Fresh(formula) => formula.observed(gauge, marks),
            Term::Waiting(timed, number) => timed.observed(gauge, number, marks),
            Term::Both(left, right) => both_of(left.observed(gauge, marks), right.observed(gauge, marks)),
            Term::Either(left, right) => either_of(left.observed(gauge, marks), right.observed(gauge, marks)),
            settled => settled,
        }
    }
}

impl Formula {
    /// What the formula, asked afresh, becomes at an observation.
    fn observed<'r>(&'r self, gauge: &impl Gauge, marks: u32) -> Term<'r> {
        match self {
            Formula::Mark(mark) => constant(has(marks, *mark)),
            Formula::NotMark(mark) => constant(!has(marks, *mark)),
            Formula::All(operands) => {
                operands.iter().rev().fold(Term::True, |rest, operand| both_of(operand.observed(gauge, marks), rest))
            }
            Formula::Any(operands) => {
                operands.iter().rev().fold(Term::False, |rest, operand| either_of(operand.observed(gauge, marks), rest))
            }
            Formula::Next(operand) => Term::Fresh(operand),
            Formula::Timed(timed) => timed.observed(gauge, STARTING_NUMBER, marks),
        }
    }
}

impl Timed {
    /// The formula waiting with a number, or what it becomes where its window is past.
    fn waiting_at<'r>(&'r self, gauge: &impl Gauge, number: u64) -> Term<'r> {
        if !self.window.is_past(gauge.read(self.window.clock, number)) {
            return Term::Waiting(self, number);
        }
        match self.shape {
            Shape::Until(..) | Shape::Eventually(_) => Term::False,
            Shape::Release(..) | Shape::Always(_) => Term::True,
        }
    }

    /// What the formula, waiting with a number, becomes at an observation.
    fn observed<'r>(&'r self, gauge: &impl Gauge, number: u64, marks: u32) -> Term<'r> {
        let waiting = Term::Waiting(self, number);
        let before = self.window.is_before(gauge.read(self.window.clock, number));
        match &self.shape {
            Shape::Until(left, right) => {
                let later = both_of(left.observed(gauge, marks), waiting);
                if before { later } else { either_of(right.observed(gauge, marks), later) }
            }
            Shape::Release(left, right) => {
                let later = either_of(left.observed(gauge, marks), waiting);
                if before { later } else { both_of(right.observed(gauge, marks), later) }
            }
            Shape::Eventually(_) | Shape::Always(_) if before => waiting,
            Shape::Eventually(operand) => either_of(operand.observed(gauge, marks), waiting),
            Shape::Always(operand) => both_of(operand.observed(gauge, marks), waiting),
        }
    }
}

// ---------------------------------------------------------------------------------------------------------------------
// Watches and traces
// ---------------------------------------------------------------------------------------------------------------------

/// A watch of one rule. A call consumes the watch and answers the new one, or the number of a refusal.
pub struct Watch<'r, G> {
    gauge: G,
    term: Term<'r>,
}

impl<'r, G: Gauge> Watch<'r, G> {
    pub fn new(rule: &'r Formula, gauge: G) -> Self {
        Watch { gauge, term: Term::Fresh(rule) }
    }

    pub fn term(&self) -> &Term<'r> {
        &self.term
    }

    pub fn advance(self, clock: u8, amount: u64) -> Result<Self, u8> {
        if clock > HIGHEST_CLOCK {
            return Err(8);
        }
        let term = self.term.advanced(&self.gauge, clock, amount);
        Ok(Watch { gauge: self.gauge, term })
    }

    pub fn observe(self, marks: u32) -> Result<Self, u8> {
        let term = self.term.observed(&self.gauge, marks);
        if term.cells() > MOST_CELLS {
            return Err(9);
        }
        Ok(Watch { gauge: self.gauge, term })
    }

    pub fn follow(self, event: Event) -> Result<Self, u8> {
        match event {
            Event::Advance { clock, amount } => self.advance(clock, amount),
            Event::Observe { marks } => self.observe(marks),
        }
    }
}

#[derive(Clone, Copy, Debug, PartialEq)]
pub enum Event {
    Advance { clock: u8, amount: u64 },
    Observe { marks: u32 },
}

/// The event of a trace record, or nothing if its kind is unknown or a field that it does not use is not zero.
pub fn event_of(record: &[u8]) -> Option<Event> {
    let clock = record[1];
    let reserved = number_of(&record[2..4]);
    let marks = number_of(&record[4..8]) as u32;
    let amount = number_of(&record[8..16]);
    match record[0] {
        1 if reserved == 0 && marks == 0 => Some(Event::Advance { clock, amount }),
        2 if reserved == 0 && clock == 0 && amount == 0 => Some(Event::Observe { marks }),
        _ => None,
    }
}

fn is_trace_length(length: usize) -> bool {
    length.is_multiple_of(TRACE_RECORD_BYTES) && length <= MOST_TRACE_BYTES
}

/// Follows a trace on a new watch for the rule of a book.
pub fn outcome(book: &[u8], trace: &[u8]) -> Result<Outcome, Refusal> {
    let rule = load(book)?;
    if !is_trace_length(trace.len()) {
        return Err(Refusal { number: 10, layer: Layer::Trace, record: 0 });
    }
    let mut watch = Watch::new(&rule, Rack);
    let mut records = 0;
    for bytes in trace.chunks_exact(TRACE_RECORD_BYTES) {
        let event = event_of(bytes).ok_or(Refusal { number: 11, layer: Layer::Trace, record: records })?;
        watch = watch.follow(event).map_err(|number| Refusal { number, layer: Layer::Watch, record: records })?;
        records += 1;
    }
    Ok(Outcome { verdict: watch.term().verdict(), records, cells: watch.term().cells() })
}

/// The line that the program prints for a book and a trace.
pub fn run(book: &[u8], trace: &[u8]) -> String {
    match outcome(book, trace) {
        Ok(outcome) => format!("{outcome}\n"),
        Err(refusal) => format!("{refusal}\n"),
    }
}
