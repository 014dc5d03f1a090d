//! Random tables that no grammar makes: records and gotos as they come. They get to places that grammars rarely reach.

use crate::chance::Chance;
use crate::tables::{Actions, rule_of};
use base::table::{Goto, Record, Table};
use base::{ERROR, START};

pub fn arbitrary_table(chance: &mut Chance) -> Table {
    let (states, classes) = (chance.within(3, 9) as u16, chance.within(4, 6) as u16);
    let (nonterms, rules) = (chance.within(1, 3), chance.within(1, 6));
    let actions = if chance.percent(30) { Actions::Refusing } else { Actions::Taking };
    let rules = (0..rules).map(|_| {
        let len = *chance.pick(&[0, 1, 1, 1, 2, 2, 3]);
        rule_of(chance.below(nonterms) as u16, len, actions, chance)
    });
    let mut table = Table {
        states,
        classes,
        nonterms: nonterms as u16,
        rules: rules.collect(),
        records: Vec::new(),
        gotos: Vec::new(),
        error_used: false,
    };
    table.error_used = chance.percent(60);
    put_records(&mut table, chance);
    put_gotos(&mut table, chance);
    table
}

/// Every second record or so; state 0 has the start alone, as a generator makes it.
fn put_records(table: &mut Table, chance: &mut Chance) {
    table.records.push(Record { state: 0, class: START, shift: Some(1), rules: Vec::new() });
    let filled = chance.within(25, 60);
    for state in 1..table.states {
        for class in (0..table.classes).filter(|&class| class != START) {
            if chance.percent(if class == ERROR { filled / 2 } else { filled }) {
                table.records.push(record(table, state, class, chance));
            }
        }
    }
}

fn record(table: &Table, state: u16, class: u16, chance: &mut Chance) -> Record {
    let count = *chance.pick(&[0, 0, 0, 1, 1, 2, 3]);
    let shift = (count == 0 || chance.percent(50)).then(|| chance.within(1, table.states as usize - 1) as u16);
    let rules = (0..count).map(|_| chance.below(table.rules.len()) as u16).collect();
    Record { state, class, shift, rules }
}

/// Nearly every goto is there; else most feeds would be refused by 7.
fn put_gotos(table: &mut Table, chance: &mut Chance) {
    for state in 1..table.states {
        for nonterm in 0..table.nonterms {
            if chance.percent(97) {
                let target = chance.within(1, table.states as usize - 1) as u16;
                table.gotos.push(Goto { state, nonterm, target });
            }
        }
    }
}
