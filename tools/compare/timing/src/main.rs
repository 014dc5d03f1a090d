//! `timing`: feeds the same lines to RustyLR's `Context` and to the proved machine, in turn, and times a term.
//! With a line's name it feeds that line once, for a program that counts instructions.

// The driver of the original and the maker of tables are those of the comparison, taken over by their files.
#[path = "../../original/src/actions.rs"]
#[allow(dead_code)]
mod actions;
#[path = "../../compare/src/chance.rs"]
#[allow(dead_code)]
mod chance;
#[path = "../../compare/src/grammar.rs"]
#[allow(dead_code)]
mod grammar;
#[path = "../../compare/src/tables.rs"]
#[allow(dead_code)]
mod grammar_tables;
#[path = "../../compare/src/items.rs"]
mod items;
#[path = "../../original/src/symbols.rs"]
mod symbols;
#[path = "../../original/src/tables.rs"]
mod tables;

mod cap;
mod clock;
mod context;
mod lines;
mod machine;

use clock::{Time, Work, take_turns};
use context::Original;
use lines::Line;
use machine::Machine;
use std::hint::black_box;

/// A line, its table as a file for the machine and in both layouts for the original.
struct Case {
    line: Line,
    file: Vec<u8>,
    layouts: [Original; 2],
}

fn main() {
    let once = std::env::args().nth(1);
    let asked = lines::all().into_iter().filter(|line| once.as_ref().is_none_or(|name| name == line.name));
    let cases: Vec<Case> = asked.map(case_of).collect();
    cases.iter().for_each(agree);
    if once.is_none() {
        let times = take_turns(&mut cases.iter().flat_map(works).collect::<Vec<_>>());
        cases.iter().zip(times.chunks(WORKS)).for_each(|(case, times)| report(case, times));
    }
}

fn case_of(line: Line) -> Case {
    let file = line.table.encode();
    let layouts = [false, true].map(|dense| Original::new(&line.table, dense));
    Case { line, file, layouts }
}

/// The rules, both layouts and the machine have to agree at each term: in the answer, and in the readings' marks.
fn agree(case: &Case) {
    let mut rules = rules::Machine::start(case.line.table.clone());
    let mut readers = case.layouts.map(|layout| layout.start());
    let mut machine = Machine::new(&case.file);
    assert_eq!(machine.start(), 0);
    for term in &case.line.terms {
        assert_eq!((rules.feed(*term).answer, machine.feed(term)), (0, 0));
        assert_eq!(machine.marks().len(), rules.readings());
        for reader in &mut readers {
            assert_eq!(reader.feed(term), 0);
            assert_eq!(reader.marks(), machine.marks());
        }
    }
}

fn describe(case: &Case) {
    let (table, terms) = (&case.line.table, &case.line.terms);
    let mut rules = rules::Machine::start(table.clone());
    let (mut walked, mut most) = (0, 0);
    for term in terms {
        walked += rules.feed(*term).walked;
        most = most.max(rules.readings());
    }
    let (records, gotos, bytes) = (table.records.len(), table.gotos.len(), case.file.len());
    println!("{}: {} states, {records} actions, {gotos} gotos, {bytes} bytes", case.line.name, table.states);
    let walked = walked as f64 / terms.len() as f64;
    let left = rules.readings();
    println!("  {} terms, {walked:.1} reductions walked a term; up to {most} readings, {left} at the end", terms.len());
}

const PARTS: [&str; 4] = ["table check", "clearing", "state check", "load"];
const WORKS: usize = 6 + PARTS.len();

/// For each of the three, a line and a start alone; then the parts of the machine's feed.
fn works(case: &Case) -> Vec<Work<'_>> {
    let Case { line, file, layouts } = case;
    let mut works: Vec<Work> = Vec::with_capacity(WORKS);
    for &layout in layouts {
        works.push(Box::new(move || {
            let mut reader = layout.start();
            line.terms.iter().for_each(|term| _ = black_box(reader.feed(term)));
        }));
        works.push(Box::new(move || drop(black_box(layout.start()))));
    }
    let (mut fed, mut started) = (Machine::new(file), Machine::new(file));
    works.push(Box::new(move || {
        fed.start();
        line.terms.iter().for_each(|term| _ = black_box(fed.feed(term)));
    }));
    works.push(Box::new(move || _ = black_box(started.start())));
    works.extend(parts(line, file));
    works
}

/// A call of the first two; of the others one for each of the line's terms, on the state before it.
fn parts<'a>(line: &'a Line, file: &'a [u8]) -> [Work<'a>; PARTS.len()] {
    let states = line.table.states;
    let before = |n: usize| {
        let mut machine = Machine::new(file);
        machine.start();
        line.terms[..n].iter().for_each(|term| _ = machine.feed(term));
        machine
    };
    let stops: Vec<Machine> = (0..line.terms.len()).map(before).collect();
    let mut loaded: Vec<Machine> = (0..line.terms.len()).map(before).collect();
    let (checked, mut cleared) = (Machine::new(file), Machine::new(file));
    [
        Box::new(move || _ = black_box(checked.check_table())),
        Box::new(move || cleared.clear()),
        Box::new(move || stops.iter().for_each(|machine| _ = black_box(machine.check_state(states)))),
        Box::new(move || loaded.iter_mut().for_each(Machine::load)),
    ]
}

fn report(case: &Case, times: &[Time]) {
    describe(case);
    let terms = case.line.terms.len() as f64;
    let feed = |at: usize| {
        let (whole, start) = (times[at], times[at + 1]);
        Time { best: (whole.best - start.best) / terms, median: (whole.median - start.median) / terms }
    };
    println!("  {:<36}{:>10}{:>10}{:>10}", "nanoseconds a term, and of a start", "best", "median", "a start");
    for (name, at) in [("the original, sparse", 0), ("the original, dense", 2), ("the machine", 4)] {
        let Time { best, median } = feed(at);
        println!("  {name:<36}{best:>10.0}{median:>10.0}{:>10.0}", times[at + 1].best);
    }
    let mut rest = feed(4).best;
    for (n, name) in PARTS.iter().enumerate() {
        let calls = if n < 2 { 1.0 } else { terms };
        let best = times[6 + n].best / calls;
        rest -= best;
        println!("    {name:<34}{best:>10.0}");
    }
    println!("    {:<34}{rest:>10.0}\n", "the rest");
}
