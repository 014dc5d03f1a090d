//! Steps that make a case smaller.

use crate::cases::Case;
use base::START;
use base::script::{Command, Term};
use base::table::{Record, Rule, Table};

/// One step. Numbers are those of the case before any step.
#[derive(Clone, Copy, PartialEq)]
pub enum Step {
    DropCommand(usize),
    DropRecord(usize),
    DropShift(usize),
    DropRule(usize, usize),
    DropGoto(usize),
    PlainRule(usize),
    NarrowCheck(usize),
    ClearMark(usize),
    PlainTerm(usize, Term),
    ErrorUnused,
}

/// All steps that could be taken.
pub fn steps_of(case: &Case) -> Vec<Step> {
    let mut steps: Vec<Step> = (0..case.commands.len()).rev().map(Step::DropCommand).collect();
    for (n, record) in case.table.records.iter().enumerate() {
        steps.extend(record_steps(n, record));
    }
    steps.extend((0..case.table.gotos.len()).map(Step::DropGoto));
    for (n, rule) in case.table.rules.iter().enumerate() {
        steps.extend(rule_steps(n, rule));
    }
    if case.table.error_used {
        steps.push(Step::ErrorUnused);
    }
    for (n, command) in case.commands.iter().enumerate() {
        steps.extend(term_steps(n, command));
    }
    steps
}

fn record_steps(n: usize, record: &Record) -> Vec<Step> {
    if record.state == 0 && record.class == START {
        return Vec::new();
    }
    let mut steps = vec![Step::DropRecord(n)];
    if record.shift.is_some() && !record.rules.is_empty() {
        steps.push(Step::DropShift(n));
    }
    if record.shift.is_some() || record.rules.len() > 1 {
        steps.extend((0..record.rules.len()).map(|m| Step::DropRule(n, m)));
    }
    steps
}

fn rule_steps(n: usize, rule: &Rule) -> Vec<Step> {
    let mut steps = Vec::new();
    if rule.kind != 0 {
        steps.push(Step::PlainRule(n));
    }
    if rule.kind == 3 && (rule.low, rule.high) != (1, 1) {
        steps.push(Step::NarrowCheck(n));
    }
    if rule.mark != 0 {
        steps.push(Step::ClearMark(n));
    }
    steps
}

fn term_steps(n: usize, command: &Command) -> Vec<Step> {
    let Command::Term(term) = *command else { return Vec::new() };
    let (value, start, end) = (0, 0, 0);
    [Term { value, start, end, ..term }, Term { value, ..term }, Term { start, end, ..term }]
        .into_iter()
        .filter(|plainer| *plainer != term)
        .map(|plainer| Step::PlainTerm(n, plainer))
        .collect()
}

/// The case after the steps, if its table is right then.
pub fn after(case: &Case, steps: &[Step]) -> Option<Case> {
    let dropped = |step: Step| steps.contains(&step);
    let mut next = case.clone();
    steps.iter().for_each(|step| change(&mut next, *step));
    keep(&mut next.commands, |n| !dropped(Step::DropCommand(n)));
    for (n, record) in next.table.records.iter_mut().enumerate() {
        keep(&mut record.rules, |m| !dropped(Step::DropRule(n, m)));
    }
    keep(&mut next.table.records, |n| !dropped(Step::DropRecord(n)));
    keep(&mut next.table.gotos, |n| !dropped(Step::DropGoto(n)));
    Table::decode(&next.table.encode()).map(|_| next)
}

fn keep<T>(list: &mut Vec<T>, wanted: impl Fn(usize) -> bool) {
    let mut n = 0;
    list.retain(|_| {
        n += 1;
        wanted(n - 1)
    });
}

/// What a step changes in its place.
fn change(case: &mut Case, step: Step) {
    match step {
        Step::DropShift(n) => case.table.records[n].shift = None,
        Step::PlainRule(n) => {
            let rule = &mut case.table.rules[n];
            (rule.kind, rule.pick, rule.low, rule.high) = (0, 0, 0, 0);
        }
        Step::NarrowCheck(n) if case.table.rules[n].kind == 3 => {
            (case.table.rules[n].low, case.table.rules[n].high) = (1, 1);
        }
        Step::ClearMark(n) => case.table.rules[n].mark = 0,
        Step::PlainTerm(n, term) => case.commands[n] = Command::Term(term),
        Step::ErrorUnused => case.table.error_used = false,
        _ => {}
    }
}
