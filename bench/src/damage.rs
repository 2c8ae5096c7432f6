//! Damage to books and traces, so that every refusal is met.

use crate::random::Random;
use crate::writing::{BOOK_RECORD_BYTES, TRACE_RECORD_BYTES};

const WIDEST: u64 = 1_000_000_000_000;

pub fn arbitrary_bytes(random: &mut Random, most: usize) -> Vec<u8> {
    let count = random.below(most);
    (0..count).map(|_| random.byte()).collect()
}

fn change_a_byte(random: &mut Random, bytes: &mut [u8]) {
    if !bytes.is_empty() {
        let at = random.below(bytes.len());
        bytes[at] ^= if random.percent(50) { 1 << random.below(8) } else { random.byte() };
    }
}

/// Cuts the end off: some bytes, or whole records.
fn cut(random: &mut Random, bytes: &mut Vec<u8>, record: usize) {
    let length = random.below(bytes.len() + 1);
    bytes.truncate(if random.percent(50) { length } else { length / record * record });
}

/// Adds bytes at the end: a few, or copies of whole records.
fn extend(random: &mut Random, bytes: &mut Vec<u8>, record: usize) {
    if bytes.len() < record || random.percent(40) {
        let count = 1 + random.below(2 * record);
        bytes.extend((0..count).map(|_| random.byte()));
        return;
    }
    let count = if random.percent(80) { 1 } else { 1 + random.below(70) };
    for _ in 0..count {
        let start = random.below(bytes.len() / record) * record;
        bytes.extend_from_within(start..start + record);
    }
}

// ---------------------------------------------------------------------------------------------------------------------
// Books
// ---------------------------------------------------------------------------------------------------------------------

/// Damages a book in one to three ways. Some of it may leave the book lawful.
pub fn damage_book(random: &mut Random, book: &mut Vec<u8>) {
    let ways = if random.percent(60) { 1 } else { 1 + random.below(3) };
    for _ in 0..ways {
        match random.below(14) {
            0 => change_a_byte(random, book),
            1 => cut(random, book, BOOK_RECORD_BYTES),
            2 => extend(random, book, BOOK_RECORD_BYTES),
            3 => drop_the_zero_record(random, book),
            4 | 5 => damage_a_record(random, book, put_a_field_out_of_range),
            6 => damage_a_record(random, book, put_a_window_out_of_range),
            7 | 8 => damage_a_record(random, book, break_a_link),
            9 => swap_two_links(random, book),
            10 => damage_a_record(random, book, change_the_kind),
            _ => damage_a_record(random, book, change_the_operator),
        }
    }
}

fn drop_the_zero_record(random: &mut Random, book: &mut [u8]) {
    if book.len() >= BOOK_RECORD_BYTES {
        book[random.below(BOOK_RECORD_BYTES)] = random.byte();
    }
}

/// Damages one record from 1 on. The damage knows how many records there are.
fn damage_a_record(random: &mut Random, book: &mut [u8], damage: fn(&mut Random, &mut [u8], usize)) {
    let records = book.len() / BOOK_RECORD_BYTES;
    if records >= 2 {
        let start = (1 + random.below(records - 1)) * BOOK_RECORD_BYTES;
        damage(random, &mut book[start..start + BOOK_RECORD_BYTES], records);
    }
}

fn put_number(record: &mut [u8], at: usize, number: u64) {
    record[at..at + 8].copy_from_slice(&number.to_be_bytes());
}

fn put_a_field_out_of_range(random: &mut Random, record: &mut [u8], _records: usize) {
    let above = |random: &mut Random, highest: u8| random.between(u64::from(highest), 255) as u8;
    match random.below(7) {
        0 => record[1] = above(random, 31),
        1 => record[1] = random.pick(&[1, 31, 32]),
        2 => record[2] = above(random, 7),
        3 => record[2] = random.pick(&[1, 7, 8]),
        4 => record[3] = random.byte(),
        5 => record[random.pick(&[8, 15])] = 1,
        _ => record[random.pick(&[16, 23])] = 1,
    }
}

fn put_a_window_out_of_range(random: &mut Random, record: &mut [u8], _records: usize) {
    if record[0] < 6 {
        record[0] = 6 + random.below(4) as u8;
        record[1] = 0;
    }
    match random.below(5) {
        0 => put_number(record, 16, WIDEST),
        1 => put_number(record, 16, WIDEST + 1),
        2 => put_number(record, 16, random.number()),
        3 => {
            let upper = random.between(0, 20);
            put_number(record, 8, upper + 1);
            put_number(record, 16, upper);
        }
        _ => put_number(record, 8, random.of_any_length(u64::MAX)),
    }
}

fn break_a_link(random: &mut Random, record: &mut [u8], records: usize) {
    let at = if record[0] <= 2 && random.percent(90) { 6 } else { random.pick(&[4, 6]) };
    let link = match random.below(6) {
        0 => 0,
        1 => records as u16,
        2 => random.number() as u16,
        _ => random.below(records) as u16,
    };
    record[at..at + 2].copy_from_slice(&link.to_be_bytes());
}

/// Exchanges two links of the same sort. The records may stay a tree, with other numbers of operands.
fn swap_two_links(random: &mut Random, book: &mut [u8]) {
    let records = book.len() / BOOK_RECORD_BYTES;
    if records < 3 {
        return;
    }
    let mut at = || (1 + random.below(records - 1)) * BOOK_RECORD_BYTES + random.pick(&[4, 6, 6]);
    let (one, other) = (at(), at());
    book.swap(one, other);
    book.swap(one + 1, other + 1);
}

fn change_the_kind(random: &mut Random, record: &mut [u8], _records: usize) {
    record[0] = if random.percent(40) { random.byte() } else { random.below(11) as u8 };
}

/// Makes a record another kind whose fields are right, so that at most its number of operands is wrong.
fn change_the_operator(random: &mut Random, record: &mut [u8], _records: usize) {
    let has_operands = record[4] != 0 || record[5] != 0;
    record[0] = if has_operands { 3 + random.below(7) as u8 } else { random.pick(&[1, 2, 3, 5, 6, 8, 9]) };
    if record[0] > 2 {
        record[1] = 0;
    }
    if record[0] < 6 {
        record[2] = 0;
        record[8..].fill(0);
    }
}

// ---------------------------------------------------------------------------------------------------------------------
// Traces
// ---------------------------------------------------------------------------------------------------------------------

/// Damages a trace in one or two ways. Some of it may leave the trace lawful.
pub fn damage_trace(random: &mut Random, trace: &mut Vec<u8>) {
    let ways = if random.percent(80) { 1 } else { 2 };
    for _ in 0..ways {
        match random.below(8) {
            0 => change_a_byte(random, trace),
            1 => cut(random, trace, TRACE_RECORD_BYTES),
            2 => extend(random, trace, TRACE_RECORD_BYTES),
            _ => damage_a_trace_record(random, trace),
        }
    }
}

fn damage_a_trace_record(random: &mut Random, trace: &mut [u8]) {
    let records = trace.len() / TRACE_RECORD_BYTES;
    if records == 0 {
        return;
    }
    let start = random.below(records) * TRACE_RECORD_BYTES;
    let record = &mut trace[start..start + TRACE_RECORD_BYTES];
    match random.below(8) {
        0 => record[0] = if random.percent(50) { random.below(4) as u8 } else { random.byte() },
        1 => record[2 + random.below(2)] = random.byte(),
        2 => record[4 + random.below(12)] = random.byte(),
        3 => record[1] = random.byte(),
        4 => record[0] ^= 3,
        _ => unknown_clock(random, record),
    }
}

fn unknown_clock(random: &mut Random, record: &mut [u8]) {
    record[0] = 1;
    record[1] = if random.percent(50) { 7 + random.below(3) as u8 } else { random.byte() };
    if random.percent(90) {
        record[4..8].fill(0);
    }
}
