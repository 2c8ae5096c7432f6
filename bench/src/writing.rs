//! Writes books and traces as bytes: the reverse of what the monitor reads.

use crate::monitor::{Event, Formula, Shape, Timed, Window};

pub const BOOK_RECORD_BYTES: usize = 24;
pub const TRACE_RECORD_BYTES: usize = 16;

// ---------------------------------------------------------------------------------------------------------------------
// Formulas in few words
// ---------------------------------------------------------------------------------------------------------------------

pub fn window(clock: u8, lower: u64, upper: u64) -> Window {
    Window { clock, lower, upper }
}

pub fn until(window: Window, left: Formula, right: Formula) -> Formula {
    Formula::Timed(Timed { window, shape: Shape::Until(Box::new(left), Box::new(right)) })
}

pub fn release(window: Window, left: Formula, right: Formula) -> Formula {
    Formula::Timed(Timed { window, shape: Shape::Release(Box::new(left), Box::new(right)) })
}

pub fn eventually(window: Window, operand: Formula) -> Formula {
    Formula::Timed(Timed { window, shape: Shape::Eventually(Box::new(operand)) })
}

pub fn always(window: Window, operand: Formula) -> Formula {
    Formula::Timed(Timed { window, shape: Shape::Always(Box::new(operand)) })
}

/// Whenever `asked` is seen, `answer` is seen before the inner window is past.
pub fn answered(outer: Window, asked: u8, inner: Window, answer: u8) -> Formula {
    let answered = eventually(inner, Formula::Mark(answer));
    always(outer, Formula::Any(vec![Formula::NotMark(asked), answered]))
}

// ---------------------------------------------------------------------------------------------------------------------
// Books
// ---------------------------------------------------------------------------------------------------------------------

/// A formula in its place: where its first operand and the next operand of its own chain stand among the places.
struct Place<'f> {
    formula: &'f Formula,
    first: Option<usize>,
    next: Option<usize>,
}

fn operands_of(formula: &Formula) -> Vec<&Formula> {
    match formula {
        Formula::Mark(_) | Formula::NotMark(_) => vec![],
        Formula::All(operands) | Formula::Any(operands) => operands.iter().collect(),
        Formula::Next(operand) => vec![operand],
        Formula::Timed(timed) => match &timed.shape {
            Shape::Until(left, right) | Shape::Release(left, right) => vec![left, right],
            Shape::Eventually(operand) | Shape::Always(operand) => vec![operand],
        },
    }
}

fn kind_of(formula: &Formula) -> u8 {
    match formula {
        Formula::Mark(_) => 1,
        Formula::NotMark(_) => 2,
        Formula::All(_) => 3,
        Formula::Any(_) => 4,
        Formula::Next(_) => 5,
        Formula::Timed(timed) => match timed.shape {
            Shape::Until(..) => 6,
            Shape::Release(..) => 7,
            Shape::Eventually(_) => 8,
            Shape::Always(_) => 9,
        },
    }
}

/// Puts a formula and everything in it among the places, and answers its own place.
fn put<'f>(formula: &'f Formula, next: Option<usize>, places: &mut Vec<Place<'f>>) -> usize {
    let mut first = None;
    for operand in operands_of(formula).into_iter().rev() {
        first = Some(put(operand, first, places));
    }
    places.push(Place { formula, first, next });
    places.len() - 1
}

/// Gives each place a record number so that every link leads forward. `choose` picks one of some waiting places.
fn numbered(places: &[Place], root: usize, mut choose: impl FnMut(usize) -> usize) -> Vec<usize> {
    let mut numbers = vec![0; places.len()];
    let mut waiting = vec![root];
    let mut number = 1;
    while !waiting.is_empty() {
        let place = waiting.remove(choose(waiting.len()));
        numbers[place] = number;
        number += 1;
        waiting.extend(places[place].next);
        waiting.extend(places[place].first);
    }
    numbers
}

fn record_of(place: &Place, numbers: &[usize]) -> [u8; BOOK_RECORD_BYTES] {
    let mut record = [0; BOOK_RECORD_BYTES];
    let link = |to: Option<usize>| (to.map_or(0, |to| numbers[to]) as u16).to_be_bytes();
    record[0] = kind_of(place.formula);
    record[4..6].copy_from_slice(&link(place.first));
    record[6..8].copy_from_slice(&link(place.next));
    match place.formula {
        Formula::Mark(mark) | Formula::NotMark(mark) => record[1] = *mark,
        Formula::Timed(timed) => {
            record[2] = timed.window.clock;
            record[8..16].copy_from_slice(&timed.window.lower.to_be_bytes());
            record[16..24].copy_from_slice(&timed.window.upper.to_be_bytes());
        }
        _ => {}
    }
    record
}

/// The book of a rule, its records in an order that `choose` decides.
pub fn book_in_order(rule: &Formula, choose: impl FnMut(usize) -> usize) -> Vec<u8> {
    let mut places = Vec::new();
    let root = put(rule, None, &mut places);
    let numbers = numbered(&places, root, choose);
    let mut book = vec![0; (places.len() + 1) * BOOK_RECORD_BYTES];
    for (place, &number) in places.iter().zip(&numbers) {
        let start = number * BOOK_RECORD_BYTES;
        book[start..start + BOOK_RECORD_BYTES].copy_from_slice(&record_of(place, &numbers));
    }
    book
}

/// The book of a rule in which each record is followed by its operands.
pub fn book(rule: &Formula) -> Vec<u8> {
    book_in_order(rule, |waiting| waiting - 1)
}

// ---------------------------------------------------------------------------------------------------------------------
// Traces
// ---------------------------------------------------------------------------------------------------------------------

pub fn observe(marks: u32) -> Event {
    Event::Observe { marks }
}

pub fn advance(clock: u8, amount: u64) -> Event {
    Event::Advance { clock, amount }
}

fn event_record(event: &Event) -> [u8; TRACE_RECORD_BYTES] {
    let mut record = [0; TRACE_RECORD_BYTES];
    match event {
        Event::Advance { clock, amount } => {
            record[0] = 1;
            record[1] = *clock;
            record[8..16].copy_from_slice(&amount.to_be_bytes());
        }
        Event::Observe { marks } => {
            record[0] = 2;
            record[4..8].copy_from_slice(&marks.to_be_bytes());
        }
    }
    record
}

pub fn trace(events: &[Event]) -> Vec<u8> {
    events.iter().flat_map(event_record).collect()
}
