//! A table with an index, so that each lookup is one step.

use base::table::{Record, Rule, Table};

pub struct Lookup {
    pub table: Table,
    /// For each state and class one more than the number of its record; 0 if there is none.
    records: Vec<u32>,
    /// For each state and nonterminal one more than the target; 0 if there is none.
    gotos: Vec<u32>,
}

impl Lookup {
    pub fn new(table: Table) -> Lookup {
        let (states, classes, nonterms) = (table.states as usize, table.classes as usize, table.nonterms as usize);
        let mut records = vec![0; states * classes];
        for (number, r) in table.records.iter().enumerate() {
            records[r.state as usize * classes + r.class as usize] = number as u32 + 1;
        }
        let mut gotos = vec![0; states * nonterms];
        for g in &table.gotos {
            gotos[g.state as usize * nonterms + g.nonterm as usize] = g.target as u32 + 1;
        }
        Lookup { table, records, gotos }
    }

    pub fn record(&self, state: u16, class: u16) -> Option<&Record> {
        let place = state as usize * self.table.classes as usize + class as usize;
        match self.records[place] {
            0 => None,
            number => Some(&self.table.records[number as usize - 1]),
        }
    }

    pub fn goto(&self, state: u16, nonterm: u16) -> Option<u16> {
        let place = state as usize * self.table.nonterms as usize + nonterm as usize;
        self.gotos[place].checked_sub(1).map(|target| target as u16)
    }

    pub fn rule(&self, number: u16) -> &Rule {
        &self.table.rules[number as usize]
    }
}
