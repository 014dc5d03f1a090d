//! The tables and lines on which time is taken.

use crate::grammar::{Grammar, Production, Symbol};
use crate::grammar_tables::unresolved;
use crate::items::item_states;
use Symbol::{N, T};
use base::script::Term;
use base::table::{Rule, Table};

pub struct Line {
    pub name: &'static str,
    pub table: Table,
    /// They are all taken.
    pub terms: Vec<Term>,
}

const T1: &[u8] = include_bytes!("../../../../crates/known_files/data/t1.tab");

/// What a rule does with the values of its items.
#[derive(Clone, Copy)]
enum Kind {
    Pick(u8),
    /// The first times a factor, and the picked one.
    Join(u32, u8),
    /// The only one, within bounds.
    Check(u32, u32),
}

/// A grammar with what its rules do.
struct Lines {
    grammar: Grammar,
    rules: Vec<Rule>,
}

impl Lines {
    fn new(classes: u16, nonterms: u16) -> Lines {
        Lines { grammar: Grammar { classes, nonterms, rules: Vec::new() }, rules: Vec::new() }
    }

    fn rule(&mut self, left: u16, right: &[Symbol], kind: Kind, mark: u32) {
        let (kind, pick, low, high) = match kind {
            Kind::Pick(pick) => (1, pick, 0, 0),
            Kind::Join(factor, pick) => (2, pick, factor, 0),
            Kind::Check(low, high) => (3, 1, low, high),
        };
        self.grammar.rules.push(Production { left, right: right.to_vec() });
        self.rules.push(Rule { left, len: right.len() as u8, kind, pick, mark, low, high });
    }

    /// Its LR(1) table, with all conflicts kept.
    fn table(self) -> Table {
        let states = item_states(&self.grammar, false).expect("at most 400 states");
        let table = unresolved(&self.grammar, &states, self.rules);
        Table::decode(&table.encode()).expect("a right table")
    }
}

/// Terms of these classes and values, one behind the other.
fn terms_of(words: &[(u32, u32)]) -> Vec<Term> {
    let term = |(place, &(class, value)): (usize, &(u32, u32))| {
        let start = place as u32;
        Term { class, value, start, end: start + 1 }
    };
    words.iter().enumerate().map(term).collect()
}

/// T1 with the line of docs/RULES.md (P3): a word that is a month or a day, and its end.
fn month_or_day() -> Line {
    let table = Table::decode(T1).expect("T1 is right");
    Line { name: "T1", table, terms: terms_of(&[(3, 9), (4, 0)]) }
}

/// A date in one of three orders, and a clock. Each order reads this line to its end: 4-5-6 7:30;
fn three_orders() -> Line {
    let [number, dash, colon, stop] = [T(3), T(4), T(5), T(6)];
    let [date, clock, day, month, year, hour, minute] = [1, 2, 3, 4, 5, 6, 7];
    let mut lines = Lines::new(7, 8);
    lines.rule(0, &[N(date), N(clock), stop], Kind::Pick(1), 0);
    for (order, mark) in [([day, month, year], 1), ([month, day, year], 2), ([year, month, day], 4)] {
        let [first, second, third] = order.map(N);
        lines.rule(date, &[first, dash, second, dash, third], Kind::Pick(1), mark);
    }
    lines.rule(clock, &[N(hour), colon, N(minute)], Kind::Join(60, 3), 0);
    for (left, low, high) in [(day, 1, 31), (month, 1, 12), (year, 0, 99), (hour, 0, 23), (minute, 0, 59)] {
        lines.rule(left, &[number], Kind::Check(low, high), 0);
    }
    let words = [(3, 4), (4, 0), (3, 5), (4, 0), (3, 6), (3, 7), (5, 0), (3, 30), (6, 0)];
    Line { name: "day-month-year", table: lines.table(), terms: terms_of(&words) }
}

/// Six operators, each binding tighter than the one before, and eight sorts of brackets, inside each of which LR(1) has
/// states of its own.
fn brackets() -> Line {
    const OPERATORS: u16 = 6;
    const BRACKETS: u16 = 8;
    let operator = |n: u16| 3 + n;
    let open = |n: u16| operator(OPERATORS) + 1 + 2 * n;
    let mut lines = Lines::new(open(BRACKETS), OPERATORS + 2);
    for n in 1..=OPERATORS {
        lines.rule(n, &[N(n), T(operator(n)), N(n + 1)], Kind::Pick(1), 0);
        lines.rule(n, &[N(n + 1)], Kind::Pick(1), 0);
    }
    lines.rule(0, &[N(1)], Kind::Pick(1), 0);
    lines.rule(OPERATORS + 1, &[T(3)], Kind::Pick(1), 0);
    for n in 0..BRACKETS {
        lines.rule(OPERATORS + 1, &[T(open(n)), N(1), T(open(n) + 1)], Kind::Pick(2), 0);
    }
    // with the operators A to F: 9 A 9 F 9 C (9 B 9) E [9 D {9}] A 9
    let words = [3, 4, 3, 9, 3, 6, 10, 3, 5, 3, 11, 8, 16, 3, 7, 24, 3, 25, 17, 4, 3];
    Line { name: "brackets", table: lines.table(), terms: terms_of(&words.map(|class| (class, 9))) }
}

pub fn all() -> [Line; 3] {
    [month_or_day(), three_orders(), brackets()]
}
