//! A small deterministic source of random numbers, and random lawful books and traces made with it.

use crate::damage;
use crate::monitor::{Event, Formula, Window};
use crate::writing::{advance, always, book_in_order, eventually, observe, release, trace, until, window};

const WIDEST: u64 = 1_000_000_000_000;
const MOST_RULE_RECORDS: usize = 63;
const MOST_TRACE_RECORDS: usize = 2_048;

// ---------------------------------------------------------------------------------------------------------------------
// Numbers
// ---------------------------------------------------------------------------------------------------------------------

/// The generator that is known as splitmix.
pub struct Random {
    state: u64,
}

impl Random {
    pub fn new(seed: u64) -> Self {
        Random { state: seed }
    }

    /// The source for one pair of a comparison, so that each pair can be made again without those before it.
    pub fn for_pair(seed: u64, pair: u64) -> Self {
        Random::new(Random::new(seed).number().wrapping_add(pair))
    }

    pub fn number(&mut self) -> u64 {
        self.state = self.state.wrapping_add(0x9E37_79B9_7F4A_7C15);
        let mut mixed = self.state;
        mixed = (mixed ^ (mixed >> 30)).wrapping_mul(0xBF58_476D_1CE4_E5B9);
        mixed = (mixed ^ (mixed >> 27)).wrapping_mul(0x94D0_49BB_1331_11EB);
        mixed ^ (mixed >> 31)
    }

    pub fn byte(&mut self) -> u8 {
        self.number() as u8
    }

    /// A number from 0 to `limit` - 1.
    pub fn below(&mut self, limit: usize) -> usize {
        (self.number() % limit as u64) as usize
    }

    /// A number between two, both of which it can be.
    pub fn between(&mut self, low: u64, high: u64) -> u64 {
        low + self.number() % (high - low + 1)
    }

    /// True in so many of a hundred cases.
    pub fn percent(&mut self, percent: usize) -> bool {
        self.below(100) < percent
    }

    pub fn pick<T: Copy>(&mut self, from: &[T]) -> T {
        from[self.below(from.len())]
    }

    /// A number up to `high` in which every length is about as likely.
    pub fn of_any_length(&mut self, high: u64) -> u64 {
        let bits = self.below(64) as u32;
        (self.number() >> bits).min(high)
    }
}

// ---------------------------------------------------------------------------------------------------------------------
// Pairs of a book and a trace
// ---------------------------------------------------------------------------------------------------------------------

/// What the rule and the trace of a pair have in common, so that they have to do with each other.
struct Theme {
    clocks: Vec<u8>,
    marks: Vec<u8>,
    narrow_percent: usize,
    /// Whether terms are meant to grow to hundreds of cells.
    growing: bool,
}

impl Theme {
    fn new(random: &mut Random) -> Self {
        let clocks = match random.below(4) {
            0 => (0..8).collect(),
            1 => vec![random.below(8) as u8, random.below(8) as u8],
            2 => vec![random.below(4) as u8],
            _ => vec![random.below(8) as u8],
        };
        let marks = match random.below(6) {
            0 => vec![0],
            1 => vec![0, 31],
            2 => vec![random.below(32) as u8, random.below(32) as u8, random.below(32) as u8],
            _ => vec![0, 1, 2],
        };
        let narrow_percent = random.pick(&[0, 50, 80, 100]);
        Theme { clocks, marks, narrow_percent, growing: random.percent(15) }
    }
}

/// A book and a trace: mostly lawful, some damaged, a few of arbitrary bytes.
pub fn pair(random: &mut Random) -> (Vec<u8>, Vec<u8>) {
    let theme = Theme::new(random);
    let mut windows = Vec::new();
    let rule = random_rule(random, &theme, &mut windows);
    let mut book = written_in_some_order(random, &rule);
    let mut trace = trace(&events(random, &theme, &windows));
    match random.below(100) {
        0..=68 => {}
        69..=83 => damage::damage_book(random, &mut book),
        84..=94 => damage::damage_trace(random, &mut trace),
        95..=97 => {
            damage::damage_book(random, &mut book);
            damage::damage_trace(random, &mut trace);
        }
        98 => book = damage::arbitrary_bytes(random, 1_600),
        _ => trace = damage::arbitrary_bytes(random, 400),
    }
    (book, trace)
}

fn written_in_some_order(random: &mut Random, rule: &Formula) -> Vec<u8> {
    match random.below(3) {
        0 => book_in_order(rule, |waiting| waiting - 1),
        1 => book_in_order(rule, |_| 0),
        _ => book_in_order(rule, |waiting| random.below(waiting)),
    }
}

// ---------------------------------------------------------------------------------------------------------------------
// Rules
// ---------------------------------------------------------------------------------------------------------------------

/// Makes formulas of a theme and notes the windows that it gave them.
struct Formulas<'a> {
    random: &'a mut Random,
    theme: &'a Theme,
    windows: &'a mut Vec<Window>,
}

fn random_rule(random: &mut Random, theme: &Theme, windows: &mut Vec<Window>) -> Formula {
    let size = match random.below(10) {
        0 => 1 + random.below(3),
        1..=5 => 3 + random.below(8),
        6..=8 => 10 + random.below(25),
        _ => MOST_RULE_RECORDS - random.below(8),
    };
    let under_a_wide_window = random.percent(50);
    let mut formulas = Formulas { random, theme, windows };
    if theme.growing {
        formulas.growing_rule()
    } else if size > 1 && under_a_wide_window {
        formulas.under_a_wide_window(size)
    } else {
        formulas.of_size(size)
    }
}

impl Formulas<'_> {
    /// Any formula with exactly so many records.
    fn of_size(&mut self, size: usize) -> Formula {
        match size {
            1 => self.leaf(),
            2 => self.with_one_operand(size),
            _ if self.random.percent(40) => self.with_one_operand(size),
            _ => self.with_more_operands(size),
        }
    }

    /// A rule that mostly stays open for long.
    fn under_a_wide_window(&mut self, size: usize) -> Formula {
        let clock = self.clock();
        let outer = self.noted(window(clock, 0, WIDEST));
        let operand = self.of_size(size - 1);
        if self.random.percent(80) { always(outer, operand) } else { eventually(outer, operand) }
    }

    fn leaf(&mut self) -> Formula {
        let mark =
            if self.random.percent(3) { self.random.below(32) as u8 } else { self.random.pick(&self.theme.marks) };
        if self.random.percent(50) { Formula::Mark(mark) } else { Formula::NotMark(mark) }
    }

    fn with_one_operand(&mut self, size: usize) -> Formula {
        let operand = self.of_size(size - 1);
        match self.random.below(5) {
            0 => Formula::Next(Box::new(operand)),
            1 | 2 => eventually(self.window(), operand),
            _ => always(self.window(), operand),
        }
    }

    fn with_more_operands(&mut self, size: usize) -> Formula {
        if self.random.percent(50) {
            let left = 1 + self.random.below(size - 2);
            let (left, right) = (self.of_size(left), self.of_size(size - 1 - left));
            return match self.random.percent(50) {
                true => until(self.window(), left, right),
                false => release(self.window(), left, right),
            };
        }
        let most = if self.random.percent(10) { size - 1 } else { 4.min(size - 1) };
        let count = 2 + self.random.below(most - 1);
        let sizes = parts(self.random, size - 1, count);
        let operands = sizes.into_iter().map(|part| self.of_size(part)).collect();
        if self.random.percent(50) { Formula::All(operands) } else { Formula::Any(operands) }
    }

    fn clock(&mut self) -> u8 {
        self.random.pick(&self.theme.clocks)
    }

    fn noted(&mut self, window: Window) -> Window {
        self.windows.push(window);
        window
    }

    fn window(&mut self) -> Window {
        let clock = self.clock();
        let (lower, upper) = if self.random.percent(self.theme.narrow_percent) {
            let lower = if self.random.percent(60) { 0 } else { self.random.between(0, 5) };
            (lower, lower + self.random.between(0, 12))
        } else {
            self.wide_ends()
        };
        self.noted(window(clock, lower, upper))
    }

    fn wide_ends(&mut self) -> (u64, u64) {
        let upper = match self.random.below(4) {
            0 => WIDEST,
            1 => self.random.between(1, WIDEST),
            _ => self.random.of_any_length(WIDEST),
        };
        match self.random.below(10) {
            0..=6 => (0, upper),
            7 => (upper, upper),
            _ => (self.random.between(0, upper), upper),
        }
    }
}

/// Splits a number into so many parts of at least 1.
fn parts(random: &mut Random, total: usize, count: usize) -> Vec<usize> {
    let mut sizes = vec![1; count];
    for _ in count..total {
        let at = random.below(count);
        sizes[at] += 1;
    }
    sizes
}

// ---------------------------------------------------------------------------------------------------------------------
// Rules whose terms grow
// ---------------------------------------------------------------------------------------------------------------------

impl Formulas<'_> {
    /// Windows inside windows that observations open again and again, over marks that are seldom seen.
    fn growing_rule(&mut self) -> Formula {
        let depth = 1 + self.random.below(3);
        let clock = self.clock();
        let outer = self.noted(window(clock, 0, WIDEST));
        let operand = self.growing(depth);
        match self.random.below(6) {
            0 => eventually(outer, operand),
            1 => until(outer, Formula::NotMark(self.theme.marks[0]), operand),
            2 => release(outer, Formula::Mark(self.theme.marks[0]), operand),
            _ => always(outer, operand),
        }
    }

    fn growing(&mut self, depth: usize) -> Formula {
        if depth == 0 {
            return self.growing_leaf();
        }
        match self.random.below(10) {
            0 => Formula::All(vec![self.growing(depth - 1), self.growing_leaf()]),
            1 => Formula::Any(vec![self.growing_leaf(), self.growing(depth - 1), self.growing_leaf()]),
            2 => Formula::Next(Box::new(self.growing(depth - 1))),
            3 => until(self.growing_window(), self.growing_leaf(), self.growing(depth - 1)),
            4 => release(self.growing_window(), self.growing_leaf(), self.growing(depth - 1)),
            5 => eventually(self.growing_window(), self.growing(depth - 1)),
            _ => always(self.growing_window(), self.growing(depth - 1)),
        }
    }

    fn growing_leaf(&mut self) -> Formula {
        let mark = self.random.pick(&self.theme.marks);
        match self.random.percent(50) {
            true => eventually(self.growing_window(), Formula::Mark(mark)),
            false => always(self.growing_window(), Formula::NotMark(mark)),
        }
    }

    fn growing_window(&mut self) -> Window {
        let clock = self.clock();
        let upper = if self.random.percent(40) { WIDEST } else { self.random.between(3, 60) };
        let lower = if self.random.percent(80) { 0 } else { self.random.between(0, 3) };
        self.noted(window(clock, lower, upper))
    }
}

// ---------------------------------------------------------------------------------------------------------------------
// Traces
// ---------------------------------------------------------------------------------------------------------------------

/// How the events of one trace are made.
struct Habits<'a> {
    theme: &'a Theme,
    windows: &'a [Window],
    advance_percent: usize,
    mark_percent: usize,
    /// Only small amounts, so that wide windows stay open.
    calm: bool,
}

fn events(random: &mut Random, theme: &Theme, windows: &[Window]) -> Vec<Event> {
    let habits = Habits {
        theme,
        windows,
        advance_percent: random.pick(if theme.growing { &[5, 30, 60] } else { &[10, 40, 60, 90] }),
        mark_percent: random.pick(if theme.growing { &[0, 0, 1, 3] } else { &[10, 30, 50, 80] }),
        calm: theme.growing || random.percent(60),
    };
    let count = trace_length(random, theme.growing);
    (0..count).map(|_| habits.event(random)).collect()
}

fn trace_length(random: &mut Random, growing: bool) -> usize {
    match random.below(100) {
        96 => MOST_TRACE_RECORDS,
        97 => MOST_TRACE_RECORDS + 1 + random.below(4),
        98 | 99 => MOST_TRACE_RECORDS - 1 - random.below(1_000),
        0..=49 if growing => 20 + random.below(150),
        _ if growing => 100 + random.below(500),
        0..=44 => random.below(13),
        45..=84 => 13 + random.below(80),
        _ => 100 + random.below(500),
    }
}

impl Habits<'_> {
    fn event(&self, random: &mut Random) -> Event {
        if !random.percent(self.advance_percent) {
            return observe(self.marks(random));
        }
        let clock = if random.percent(5) { random.below(8) as u8 } else { random.pick(&self.theme.clocks) };
        advance(clock, self.amount(random, clock))
    }

    fn marks(&self, random: &mut Random) -> u32 {
        let mut marks = 0;
        for &mark in &self.theme.marks {
            if random.percent(self.mark_percent) {
                marks |= 1 << mark;
            }
        }
        if !self.theme.growing && random.percent(3) {
            marks |= random.number() as u32;
        }
        marks
    }

    fn amount(&self, random: &mut Random, clock: u8) -> u64 {
        if clock >= 6 && random.percent(70) {
            let channels = random.pick(&[4, 64]);
            return 1 << random.below(channels);
        }
        match random.below(100) {
            0..=9 => 0,
            10..=49 => random.between(1, 3),
            _ if self.theme.growing => random.between(0, 2),
            50..=79 => random.between(1, 20),
            80..=94 => self.telling_amount(random),
            _ if self.calm => random.between(0, 100),
            95..=97 => random.of_any_length(u64::MAX),
            _ => u64::MAX - random.of_any_length(1_000),
        }
    }

    /// An amount at the edge of some window of the rule.
    fn telling_amount(&self, random: &mut Random) -> u64 {
        if self.windows.is_empty() {
            return 1;
        }
        let window = random.pick(self.windows);
        match random.below(6) {
            0 => window.lower,
            1 => window.lower.saturating_sub(1),
            2 => window.upper - window.lower,
            3 => window.upper / 2,
            4 if !self.calm => window.upper + 1,
            _ => window.upper.min(if self.calm { 30 } else { WIDEST }),
        }
    }
}

#[cfg(test)]
mod tests {
    use super::*;
    use crate::monitor::load;

    #[test]
    fn random_rules_are_lawful_and_load_as_they_were() {
        for pair in 0..3_000 {
            let mut random = Random::for_pair(7, pair);
            let theme = Theme::new(&mut random);
            let rule = random_rule(&mut random, &theme, &mut Vec::new());
            let book = written_in_some_order(&mut random, &rule);
            assert_eq!(load(&book), Ok(rule), "pair {pair}");
        }
    }

    #[test]
    fn formulas_have_the_size_asked_for() {
        for size in 1..=MOST_RULE_RECORDS {
            let mut random = Random::new(size as u64);
            let theme = Theme::new(&mut random);
            let mut windows = Vec::new();
            let rule = Formulas { random: &mut random, theme: &theme, windows: &mut windows }.of_size(size);
            assert_eq!(written_in_some_order(&mut random, &rule).len(), (size + 1) * 24);
        }
    }

    #[test]
    fn the_same_seed_makes_the_same_pair() {
        assert_eq!(pair(&mut Random::for_pair(3, 4)), pair(&mut Random::for_pair(3, 4)));
        assert_ne!(pair(&mut Random::for_pair(3, 4)), pair(&mut Random::for_pair(3, 5)));
    }
}
