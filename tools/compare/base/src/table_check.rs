//! Which tables are right: everything that answer 2 asks beyond the frame of the fields.

use crate::START;
use crate::table::{Record, Rule, Table};

const STATES: u16 = 512;
const CLASSES: u16 = 64;
const NONTERMS: u16 = 64;
const RULES: usize = 256;
const LENGTH: u8 = 15;
const RULES_OF_RECORD: usize = 4;

pub fn is_right(table: &Table) -> bool {
    counts_right(table)
        && table.rules.iter().all(|rule| rule_right(table, rule))
        && table.records.iter().all(|record| record_right(table, record))
        && ascends(table.records.iter().map(|r| (r.state, r.class)))
        && table.gotos.iter().all(|g| g.state < table.states && g.nonterm < table.nonterms && g.target < table.states)
        && ascends(table.gotos.iter().map(|g| (g.state, g.nonterm)))
        && table.records.iter().any(|r| r.state == 0 && r.class == START && r.shift.is_some())
}

fn counts_right(table: &Table) -> bool {
    (1..=STATES).contains(&table.states)
        && (4..=CLASSES).contains(&table.classes)
        && (1..=NONTERMS).contains(&table.nonterms)
        && table.rules.len() <= RULES
}

fn rule_right(table: &Table, rule: &Rule) -> bool {
    rule.left < table.nonterms && rule.len <= LENGTH && kind_right(rule)
}

fn kind_right(rule: &Rule) -> bool {
    let picks = 1 <= rule.pick && rule.pick <= rule.len;
    match rule.kind {
        0 => rule.pick == 0 && rule.low == 0 && rule.high == 0,
        1 => picks && rule.low == 0 && rule.high == 0,
        2 => picks && rule.high == 0,
        3 => picks && rule.low <= rule.high,
        _ => false,
    }
}

fn record_right(table: &Table, record: &Record) -> bool {
    record.state < table.states
        && record.class < table.classes
        && record.shift.is_none_or(|target| target < table.states)
        && record.rules.len() <= RULES_OF_RECORD
        && record.rules.iter().all(|&rule| (rule as usize) < table.rules.len())
        && (record.shift.is_some() || !record.rules.is_empty())
}

fn ascends(keys: impl Iterator<Item = (u16, u16)> + Clone) -> bool {
    keys.clone().zip(keys.skip(1)).all(|(a, b)| a < b)
}
