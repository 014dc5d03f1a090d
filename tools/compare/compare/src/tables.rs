//! Tables of grammars, with all conflicts kept, as a generator for a nondeterministic parser makes them.

use crate::chance::Chance;
use crate::grammar::{Grammar, Symbol};
use crate::items::{Items, item_states};
use base::table::{Goto, Record, Rule, Table};
use std::collections::BTreeMap;

/// How the actions of the rules are chosen.
#[derive(Clone, Copy, PartialEq, Eq)]
pub enum Actions {
    /// Such that small values are never refused.
    Taking,
    /// With narrow checks and great factors.
    Refusing,
}

pub struct Conflicts {
    pub shift_reduce: usize,
    pub reduce_reduce: usize,
}

/// The table, or `None` if the grammar does not fit the limits.
pub fn table_of(grammar: &Grammar, lalr: bool, actions: Actions, chance: &mut Chance) -> Option<Table> {
    let states = item_states(grammar, lalr)?;
    let rules = grammar.rules.iter().map(|r| rule_of(r.left, r.right.len(), actions, chance)).collect();
    let mut table = unresolved(grammar, &states, rules);
    if chance.percent(RESOLVED) {
        resolve(&mut table, chance);
    }
    Table::decode(&table.encode())
}

/// The table of these item sets, with all conflicts kept; the rules stand in the grammar's order.
pub fn unresolved(grammar: &Grammar, states: &[(Items, BTreeMap<Symbol, usize>)], rules: Vec<Rule>) -> Table {
    let mut table = Table {
        states: states.len() as u16,
        classes: grammar.classes,
        nonterms: grammar.nonterms,
        rules,
        records: Vec::new(),
        gotos: Vec::new(),
        error_used: grammar.uses_error(),
    };
    for (number, (items, next)) in states.iter().enumerate() {
        put_state(&mut table, grammar, number as u16, items, next);
    }
    table
}

/// In this part of the tables some shift/reduce conflicts are resolved, as precedences do it.
const RESOLVED: usize = 15;

fn resolve(table: &mut Table, chance: &mut Chance) {
    for record in &mut table.records {
        if record.shift.is_some() && !record.rules.is_empty() {
            match chance.below(3) {
                0 => record.shift = None,
                1 => record.rules.clear(),
                _ => {}
            }
        }
    }
}

fn put_state(table: &mut Table, grammar: &Grammar, state: u16, items: &Items, next: &BTreeMap<Symbol, usize>) {
    for class in 0..grammar.classes {
        let shift = next.get(&Symbol::T(class)).map(|&target| target as u16);
        let done = |rule: usize, dot: usize| grammar.rules.get(rule).is_some_and(|r| r.right.len() == dot);
        let rules: Vec<u16> = items
            .iter()
            .filter(|((rule, dot), classes)| done(*rule, *dot) && *classes >> class & 1 == 1)
            .map(|((rule, _), _)| *rule as u16)
            .collect();
        if shift.is_some() || !rules.is_empty() {
            table.records.push(Record { state, class, shift, rules });
        }
    }
    for (symbol, &target) in next {
        if let Symbol::N(nonterm) = *symbol {
            table.gotos.push(Goto { state, nonterm, target: target as u16 });
        }
    }
}

/// A rule with a random kind that fits its length.
pub fn rule_of(left: u16, len: usize, actions: Actions, chance: &mut Chance) -> Rule {
    let mark = if chance.percent(10) { chance.bits() as u32 } else { 1 << chance.below(12) };
    let kind = if len == 0 { 0 } else { *chance.pick(&[0, 1, 1, 1, 2, 3, 3]) };
    let pick = if kind == 0 { 0 } else { chance.within(1, len) as u8 };
    let (low, high) = match (kind, actions) {
        (2, Actions::Taking) => (chance.below(3) as u32, 0),
        (2, Actions::Refusing) => (*chance.pick(&[10, 100, 1 << 16, u32::MAX]), 0),
        (3, Actions::Taking) => (0, u32::MAX),
        (3, Actions::Refusing) => *chance.pick(&[(1, 12), (1, 31), (0, 3), (5, 99), (1, 1), (0, 60), (0, u32::MAX)]),
        _ => (0, 0),
    };
    Rule { left, len: len as u8, kind, pick, mark, low, high }
}

pub fn conflicts(table: &Table) -> Conflicts {
    let both = |r: &&Record| r.shift.is_some() && !r.rules.is_empty();
    Conflicts {
        shift_reduce: table.records.iter().filter(both).count(),
        reduce_reduce: table.records.iter().filter(|r| r.rules.len() > 1).count(),
    }
}
