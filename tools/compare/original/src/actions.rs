//! Values and reduce actions: the rules' kinds, with the mark as the original's user data.

use crate::symbols::{Fed, NonTerm};
use crate::tables::{Layout, Rules};
use base::table::{Rule, Table};
use original::TerminalSymbol;
use original::parser::Parser;
use original::parser::semantic_value::{SemanticValue, StartExtractor};
use std::cell::Cell;
use std::ops::Range;

/// A table made ready for the original; it lives as long as the process.
pub struct Loaded {
    pub table: Table,
    pub layout: Layout,
}

thread_local! {
    static LOADED: Cell<Option<&'static Loaded>> = const { Cell::new(None) };
}

pub fn load(table: Table, dense: bool) {
    choose(ready(table, dense));
}

pub fn ready(table: Table, dense: bool) -> &'static Loaded {
    let layout = Layout::new(&table, dense);
    Box::leak(Box::new(Loaded { table, layout }))
}

/// From here on the original reads by this table.
pub fn choose(table: &'static Loaded) {
    LOADED.set(Some(table));
}

pub fn loaded() -> &'static Loaded {
    LOADED.get().expect("a table is loaded")
}

#[derive(Clone, Copy, Debug)]
pub struct Value(pub u32);

#[derive(Clone, Copy, Debug)]
pub struct Refused {
    pub rule: usize,
    pub mark: u32,
}

impl SemanticValue for Value {
    type Term = Fed;
    type NonTerm = NonTerm;
    type UserData = u32;
    type ReduceActionError = Refused;
    type Location = Range<u32>;

    fn new_empty() -> Self {
        Value(0)
    }

    fn new_terminal(term: Fed) -> Self {
        Value(term.value)
    }

    fn reduce_action(
        values: &mut Vec<Self>,
        locations: &mut Vec<Range<u32>>,
        _push: bool,
        number: usize,
        _shift: &mut bool,
        _lookahead: &TerminalSymbol<Fed>,
        mark: &mut u32,
        _location: &mut Range<u32>,
    ) -> Result<(), Refused> {
        let rule = &loaded().table.rules[number];
        let bottom = values.len() - rule.len as usize;
        let value = act(rule, &values[bottom..]).ok_or(Refused { rule: number, mark: *mark });
        values.truncate(bottom);
        locations.truncate(locations.len() - rule.len as usize);
        values.push(Value(value?));
        *mark = mark.wrapping_add(rule.mark);
        Ok(())
    }
}

fn act(rule: &Rule, items: &[Value]) -> Option<u32> {
    let picked = || items[rule.pick as usize - 1].0;
    match rule.kind {
        0 => Some(0),
        1 => Some(picked()),
        2 => items[0].0.checked_mul(rule.low)?.checked_add(picked()),
        _ => Some(picked()).filter(|value| (rule.low..=rule.high).contains(value)),
    }
}

pub struct Start;

impl StartExtractor<Value> for Start {
    type StartType = u32;
    const BRANCH_INDEX: u32 = 0;

    fn extract(value: Value) -> Option<u32> {
        Some(value.0)
    }
}

/// The parser type for tables with and without use of the error class.
pub struct Driven<const ERROR_USED: bool>;

impl<const USED: bool> Parser for Driven<USED> {
    const ERROR_USED: bool = USED;
    type Term = Fed;
    type TermClass = crate::symbols::Class;
    type NonTerm = NonTerm;
    type StateIndex = u16;
    type ReduceRules = Rules;
    type Tables = Layout;

    fn get_tables() -> &'static Layout {
        &loaded().layout
    }

    fn __rusty_lr_parser_version() -> (usize, usize, usize) {
        original::versions::EXPECTED_RUSTY_LR_PARSER_VERSION
    }
}
