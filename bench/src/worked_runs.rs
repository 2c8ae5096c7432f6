//! Tests of the boxed monitor: the worked runs, the example book, and every refusal.

use crate::monitor::{Event, Formula, Gauge, Rack, Refusal, Term, Verdict, Watch, load, run};
use crate::writing::{
    advance, always, answered, book, book_in_order, eventually, observe, release, trace, until, window,
};

const NONE: u32 = 0;
const ZERO: u32 = 1;
const ONE: u32 = 2;

/// A gauge that divides the sum and drops the fraction, as one of the worked runs asks.
struct CoarseSum {
    divisor: u64,
}

impl Gauge for CoarseSum {
    fn add(&self, _clock: u8, total: u64, amount: u64) -> u64 {
        total.saturating_add(amount)
    }

    fn read(&self, _clock: u8, total: u64) -> u64 {
        total / self.divisor
    }
}

fn response() -> Formula {
    answered(window(0, 0, 20), 0, window(0, 0, 10), 1)
}

fn until_in_3_to_5() -> Formula {
    until(window(0, 3, 5), Formula::Mark(0), Formula::Mark(1))
}

fn release_in_0_to_5() -> Formula {
    release(window(0, 0, 5), Formula::Mark(0), Formula::Mark(1))
}

/// What a rule comes to on some events: the verdict and the number of cells.
fn followed(rule: &Formula, gauge: impl Gauge, events: &[Event]) -> (Verdict, usize) {
    let mut watch = Watch::new(rule, gauge);
    for &event in events {
        watch = watch.follow(event).unwrap_or_else(|number| panic!("refused={number}"));
    }
    (watch.term().verdict(), watch.term().cells())
}

fn on_the_rack(rule: &Formula, events: &[Event]) -> (Verdict, usize) {
    followed(rule, Rack, events)
}

// ---------------------------------------------------------------------------------------------------------------------
// The worked runs
// ---------------------------------------------------------------------------------------------------------------------

/// The seven events of the longest worked run.
fn longest_run() -> [Event; 7] {
    [observe(ZERO), advance(0, 10), observe(ONE), advance(0, 10), observe(ZERO), advance(0, 1), observe(ONE)]
}

#[test]
fn response_runs_are_as_worked() {
    let events = longest_run();
    let expected = [
        (Verdict::Undecided, 1),
        (Verdict::Undecided, 3),
        (Verdict::Undecided, 3),
        (Verdict::Undecided, 1),
        (Verdict::Undecided, 1),
        (Verdict::Undecided, 3),
        (Verdict::Undecided, 1),
        (Verdict::True, 0),
    ];
    for (count, expected) in expected.into_iter().enumerate() {
        assert_eq!(on_the_rack(&response(), &events[..count]), expected, "after {count} events");
    }
}

#[test]
fn a_deadline_passes_without_an_observation() {
    assert_eq!(on_the_rack(&response(), &[observe(ZERO), advance(0, 11)]), (Verdict::False, 0));
}

#[test]
fn the_longest_run_has_the_terms_as_worked() {
    let rule = response();
    let Formula::Timed(outer) = &rule else { panic!("an always") };
    let inner_formula = eventually(window(0, 0, 10), Formula::Mark(1));
    let Formula::Timed(inner) = &inner_formula else { panic!("an eventually") };
    let both = |inner_number, outer_number| {
        Term::Both(Box::new(Term::Waiting(inner, inner_number)), Box::new(Term::Waiting(outer, outer_number)))
    };
    let expected = [
        both(0, 0),
        both(10, 10),
        Term::Waiting(outer, 10),
        Term::Waiting(outer, 20),
        both(0, 20),
        Term::Waiting(inner, 1),
        Term::True,
    ];
    let mut watch = Watch::new(&rule, Rack);
    assert_eq!(*watch.term(), Term::Fresh(&rule));
    for (event, expected) in longest_run().into_iter().zip(expected) {
        watch = watch.follow(event).expect("nothing is refused");
        assert_eq!(*watch.term(), expected);
    }
}

#[test]
fn untils_are_as_worked() {
    let verdict = |events: &[Event]| on_the_rack(&until_in_3_to_5(), events).0;
    assert_eq!(verdict(&[observe(ZERO), advance(0, 3), observe(ONE)]), Verdict::True);
    assert_eq!(verdict(&[observe(ZERO), advance(0, 2), observe(ONE)]), Verdict::False);
    assert_eq!(verdict(&[observe(ZERO), advance(0, 6)]), Verdict::False);
}

#[test]
fn releases_are_as_worked() {
    let verdict = |events: &[Event]| on_the_rack(&release_in_0_to_5(), events).0;
    assert_eq!(verdict(&[observe(ZERO)]), Verdict::False);
    assert_eq!(verdict(&[observe(ZERO | ONE)]), Verdict::True);
}

#[test]
fn peaks_are_as_worked() {
    let rule = eventually(window(4, 4, 9), Formula::Mark(0));
    let events = [observe(NONE), advance(4, 3), observe(ZERO), advance(4, 4), observe(ZERO)];
    assert_eq!(on_the_rack(&rule, &events[..3]).0, Verdict::Undecided);
    assert_eq!(on_the_rack(&rule, &events).0, Verdict::True);
}

#[test]
fn coarse_gauges_are_as_worked() {
    let rule = eventually(window(0, 0, 10), Formula::Mark(1));
    let events = [observe(NONE), advance(0, 10_999), advance(0, 1)];
    assert_eq!(followed(&rule, CoarseSum { divisor: 1_000 }, &events[..2]).0, Verdict::Undecided);
    assert_eq!(followed(&rule, CoarseSum { divisor: 1_000 }, &events).0, Verdict::False);
}

// ---------------------------------------------------------------------------------------------------------------------
// Other points of the logic
// ---------------------------------------------------------------------------------------------------------------------

#[test]
fn gauges_add_and_read_as_written() {
    assert_eq!(Rack.add(3, u64::MAX - 5, 10), u64::MAX);
    assert_eq!(Rack.add(4, 3, 2), 3);
    assert_eq!(Rack.add(5, 3, 400), 400);
    assert_eq!(Rack.add(6, 5, 6), 7);
    assert_eq!(Rack.read(7, 7), 3);
    assert_eq!(Rack.read(7, u64::MAX), 64);
    assert_eq!(Rack.read(3, 12), 12);
    assert_eq!(Rack.read(5, 12), 12);
}

#[test]
fn next_is_asked_one_observation_later() {
    let rule = Formula::Next(Box::new(Formula::Mark(1)));
    assert_eq!(on_the_rack(&rule, &[observe(ONE)]), (Verdict::Undecided, 1));
    assert_eq!(on_the_rack(&rule, &[observe(ONE), advance(0, 5), observe(NONE)]), (Verdict::False, 0));
    assert_eq!(on_the_rack(&rule, &[observe(NONE), observe(ONE)]), (Verdict::True, 0));
}

#[test]
fn an_advance_before_the_first_observation_is_not_told() {
    let rule = eventually(window(0, 0, 0), Formula::Mark(1));
    assert_eq!(on_the_rack(&rule, &[advance(0, u64::MAX), observe(ONE)]), (Verdict::True, 0));
}

#[test]
fn operands_are_grouped_from_the_right() {
    let wait = || eventually(window(0, 0, 9), Formula::Mark(1));
    let rule = Formula::All(vec![wait(), wait(), wait()]);
    let watch = Watch::new(&rule, Rack).observe(NONE).expect("nothing is refused");
    assert_eq!(watch.term().cells(), 5);
    let Term::Both(first, _) = watch.term() else { panic!("a both") };
    assert_eq!(first.cells(), 1);
}

// ---------------------------------------------------------------------------------------------------------------------
// The example book and the line
// ---------------------------------------------------------------------------------------------------------------------

const EXAMPLE: &str = "
    000000000000000000000000000000000000000000000000
    09000000 0002 0000 0000000000000000 000000141DD76000
    04000000 0003 0000 0000000000000000 0000000000000000
    02000000 0000 0004 0000000000000000 0000000000000000
    08000000 0005 0000 0000000000000000 0000000000002710
    01010000 0000 0000 0000000000000000 0000000000000000";

fn example() -> Vec<u8> {
    let digits: Vec<u8> = EXAMPLE.chars().filter_map(|digit| digit.to_digit(16)).map(|digit| digit as u8).collect();
    digits.chunks(2).map(|pair| pair[0] << 4 | pair[1]).collect()
}

fn example_rule() -> Formula {
    answered(window(0, 0, 86_400_000_000), 0, window(0, 0, 10_000), 1)
}

#[test]
fn the_example_is_read_and_written() {
    assert_eq!(load(&example()), Ok(example_rule()));
    assert_eq!(book(&example_rule()), example());
}

#[test]
fn the_example_prints_its_lines() {
    let line = |events: &[Event]| run(&example(), &trace(events));
    assert_eq!(line(&[]), "verdict=undecided records=0 cells=1\n");
    assert_eq!(line(&[observe(ZERO), advance(0, 10_000)]), "verdict=undecided records=2 cells=3\n");
    assert_eq!(line(&[observe(ZERO), advance(0, 10_001)]), "verdict=false records=2 cells=0\n");
    assert_eq!(line(&[observe(ONE), advance(0, 86_400_000_001)]), "verdict=true records=2 cells=0\n");
}

#[test]
fn a_decided_run_goes_on_to_its_end() {
    let mut events = vec![observe(ZERO), advance(0, 10_001), observe(ONE), advance(7, 1)];
    assert_eq!(run(&example(), &trace(&events)), "verdict=false records=4 cells=0\n");
    events.push(advance(8, 1));
    assert_eq!(run(&example(), &trace(&events)), "refused=8 layer=watch record=4\n");
}

// ---------------------------------------------------------------------------------------------------------------------
// Refusals of books
// ---------------------------------------------------------------------------------------------------------------------

/// The number and record that the example is refused with once some bytes of records are changed.
fn refused(changes: &[(usize, usize, u8)]) -> Option<(u8, usize)> {
    let mut book = example();
    for &(record, at, byte) in changes {
        book[record * 24 + at] = byte;
    }
    load(&book).err().map(|Refusal { number, record, .. }| (number, record))
}

#[test]
fn lengths_are_refused() {
    let line = |length: usize| run(&vec![0; length], &[]);
    for length in [0, 24, 47, 49, 1_535, 1_537, 1_560] {
        assert_eq!(line(length), "refused=1 layer=book record=0\n", "{length}");
    }
    for length in [48, 1_536] {
        assert_eq!(line(length), "refused=2 layer=book record=1\n", "{length}");
    }
}

#[test]
fn kinds_are_refused() {
    assert_eq!(refused(&[]), None);
    assert_eq!(refused(&[(0, 23, 1)]), Some((2, 0)));
    assert_eq!(refused(&[(5, 0, 0), (3, 0, 10)]), Some((2, 3)));
    assert_eq!(refused(&[(5, 0, 0), (3, 1, 32)]), Some((2, 5)));
}

#[test]
fn fields_are_refused() {
    assert_eq!(refused(&[(3, 1, 32)]), Some((3, 3)));
    assert_eq!(refused(&[(3, 1, 31)]), None);
    assert_eq!(refused(&[(4, 2, 8)]), Some((3, 4)));
    assert_eq!(refused(&[(4, 2, 7)]), None);
    assert_eq!(refused(&[(2, 3, 1)]), Some((3, 2)));
    assert_eq!(refused(&[(5, 5, 1)]), Some((3, 5)));
    assert_eq!(refused(&[(2, 8, 1)]), Some((3, 2)));
    assert_eq!(refused(&[(2, 23, 1), (1, 1, 1)]), Some((3, 1)));
}

#[test]
fn windows_are_refused() {
    assert_eq!(refused(&[(4, 14, 0x27), (4, 15, 0x10)]), None);
    assert_eq!(refused(&[(4, 14, 0x27), (4, 15, 0x11)]), Some((4, 4)));
    assert_eq!(refused(&[(1, 18, 1)]), Some((4, 1)));
}

#[test]
fn the_widest_window_is_taken() {
    let of_upper = |upper: u64| load(&book(&always(window(0, 0, upper), Formula::Mark(0))));
    assert!(of_upper(1_000_000_000_000).is_ok());
    assert_eq!(of_upper(1_000_000_000_001).err().map(|refusal| refusal.number), Some(4));
}

#[test]
fn links_are_refused() {
    assert_eq!(refused(&[(3, 7, 3)]), Some((5, 3)), "a link to itself");
    assert_eq!(refused(&[(3, 7, 0)]), Some((5, 4)), "a record that is named never");
    assert_eq!(refused(&[(5, 7, 6)]), Some((5, 5)), "a link behind the book");
    assert_eq!(refused(&[(1, 7, 2)]), Some((5, 1)), "a next of record 1");
    assert_eq!(refused(&[(5, 7, 2)]), Some((5, 2)), "a faulty link counts, so record 2 is named twice");
    assert_eq!(refused(&[(5, 7, 1)]), Some((5, 5)), "a link back to record 1");
    assert_eq!(refused(&[(2, 7, 5)]), Some((5, 5)), "a record that is named twice");
}

#[test]
fn numbers_of_operands_are_refused() {
    assert_eq!(refused(&[(2, 0, 5)]), Some((6, 2)), "a next of two");
    assert_eq!(refused(&[(1, 0, 6)]), Some((6, 1)), "an until of one");
    assert_eq!(refused(&[(2, 0, 7)]), None, "a release of two");
    assert_eq!(refused(&[(2, 0, 5), (1, 0, 7)]), Some((6, 1)));
    assert_eq!(refused(&[(5, 0, 9), (5, 1, 0)]), Some((6, 5)), "an always of none");
}

#[test]
fn every_order_of_records_is_the_same_rule() {
    let rule = Formula::All(vec![response(), until_in_3_to_5(), release_in_0_to_5()]);
    assert_eq!(load(&book(&rule)), Ok(rule.clone()));
    assert_eq!(load(&book_in_order(&rule, |_| 0)), Ok(rule));
}

// ---------------------------------------------------------------------------------------------------------------------
// Refusals of traces and watches
// ---------------------------------------------------------------------------------------------------------------------

#[test]
fn trace_lengths_are_refused() {
    let line = |trace: &[u8]| run(&example(), trace);
    let longest = trace(&vec![advance(1, 1); 2_048]);
    assert_eq!(line(&longest), "verdict=undecided records=2048 cells=1\n");
    assert_eq!(line(&longest[1..]), "refused=10 layer=trace record=0\n");
    assert_eq!(line(&trace(&vec![advance(1, 1); 2_049])), "refused=10 layer=trace record=0\n");
    assert_eq!(run(&[], &longest[1..]), "refused=1 layer=book record=0\n");
}

#[test]
fn trace_records_are_refused() {
    let line = |kind_of_event: Event, at: usize, byte: u8| {
        let mut bytes = trace(&[observe(NONE), kind_of_event]);
        bytes[16 + at] = byte;
        run(&example(), &bytes)
    };
    let malformed = "refused=11 layer=trace record=1\n";
    for kind in [0, 3, 255] {
        assert_eq!(line(observe(NONE), 0, kind), malformed);
    }
    for at in [1, 2, 3, 8, 15] {
        assert_eq!(line(observe(NONE), at, 1), malformed);
    }
    for at in [2, 3, 4, 7] {
        assert_eq!(line(advance(9, 0), at, 1), malformed);
    }
    assert_eq!(line(advance(0, 0), 1, 8), "refused=8 layer=watch record=1\n");
    assert_eq!(line(advance(0, 0), 1, 7), "verdict=undecided records=2 cells=1\n");
}

#[test]
fn too_many_cells_are_refused() {
    let rule = always(window(0, 0, 9), eventually(window(0, 0, 9), Formula::Mark(1)));
    let line = |count: usize| run(&book(&rule), &trace(&vec![observe(NONE); count]));
    assert_eq!(line(511), "verdict=undecided records=511 cells=1023\n");
    assert_eq!(line(512), "refused=9 layer=watch record=511\n");
    let mut broken_later = trace(&vec![observe(NONE); 512]);
    broken_later.extend([0; 16]);
    assert_eq!(run(&book(&rule), &broken_later), "refused=9 layer=watch record=511\n");
}
