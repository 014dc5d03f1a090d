// Tables made for one kind of feed each: their parts, and their bytes.
use crate::file::{put, put_field};
use std::collections::BTreeMap;

const CLASSES: u16 = 64;
const NONTERMINALS: u16 = 64;
const ERROR: u16 = 1;
const START: u16 = 2;
const NO_SHIFT: u16 = 65535;
// The classes that the tables use: a word, a split into 16 readings, one entry more, what nobody takes.
pub const WORD: u16 = 3;
pub const SPLIT: u16 = 4;
pub const HIGHER: u16 = 6;
pub const UNKNOWN: u16 = 9;
// Reductions of the longest chain; they go to the nonterminals from 32 on, dead ends beside them to nonterminal 8.
const CHAIN: u16 = 32;
const NOWHERE: u16 = 8;
// A walk of 2 + 4 + .. + 2^9 dead ends.
const DOUBLINGS: u16 = 9;

// Rules as left side and length; records and gotos by state and class or nonterminal, in the file's order.
#[derive(Default)]
pub struct Table {
    states: u16,
    rules: Vec<(u16, u8)>,
    records: BTreeMap<(u16, u16), (u16, Vec<u16>)>,
    gotos: BTreeMap<(u16, u16), u16>,
    error_used: bool,
}

// Zero where a rule has no items, else its first; each adds 1 to the mark.
fn rule_bytes(&(left, len): &(u16, u8)) -> Vec<u8> {
    let kind = u8::from(len > 0);
    [&left.to_be_bytes()[..], &[len, kind, kind], &[0, 0, 0, 1], &[0; 8]].concat()
}

impl Table {
    pub fn file(&self) -> Vec<u8> {
        let (mut counts, mut actions, mut gotos, mut file) = (vec![], vec![], vec![], vec![]);
        for n in [self.states, CLASSES, NONTERMINALS, self.rules.len() as u16] {
            put(&mut counts, n);
        }
        for (&(state, class), (shift, rules)) in &self.records {
            [state, class, *shift].iter().for_each(|&n| put(&mut actions, n));
            actions.push(rules.len() as u8);
            rules.iter().for_each(|&rule| put(&mut actions, rule));
        }
        for (&(state, nonterminal), &target) in &self.gotos {
            [state, nonterminal, target].iter().for_each(|&n| put(&mut gotos, n));
        }
        put_field(&mut file, 1, &counts);
        put_field(
            &mut file,
            2,
            &self.rules.iter().flat_map(rule_bytes).collect::<Vec<u8>>(),
        );
        put_field(&mut file, 3, &actions);
        put_field(&mut file, 4, &gotos);
        put_field(&mut file, 5, &[u8::from(self.error_used)]);
        file
    }

    fn shift(&mut self, state: u16, class: u16, to: u16) {
        self.records.insert((state, class), (to, vec![]));
    }

    fn reduce(&mut self, state: u16, class: u16, rules: Vec<u16>) {
        self.records.insert((state, class), (NO_SHIFT, rules));
    }

    fn rule(&mut self, left: u16, len: u8) -> u16 {
        self.rules.push((left, len));
        self.rules.len() as u16 - 1
    }

    fn state(&mut self) -> u16 {
        self.states += 1;
        self.states - 1
    }

    // 32 reductions one after the other over the base state, the first of `len` items, then a shift to `to`; in front of each
    // stand so many others that lead nowhere.
    fn chain(&mut self, (base, state): (u16, u16), class: u16, len: u8, dead: usize, to: u16) {
        let nowhere = self.state();
        self.gotos.insert((base, NOWHERE), nowhere);
        let mut from = state;
        for step in 0..CHAIN {
            let len = if step == 0 { len } else { 1 };
            let mut rules = vec![self.rule(NOWHERE, len); dead];
            rules.push(self.rule(CHAIN + step, len));
            self.reduce(from, class, rules);
            from = self.state();
            self.gotos.insert((base, CHAIN + step), from);
        }
        self.shift(from, class, to);
    }

    // The same with all states but 0 behind so many new ones.
    fn moved(&self, by: u16) -> Table {
        let at = |state: u16| {
            if state == 0 || state == NO_SHIFT {
                state
            } else {
                state + by
            }
        };
        let record = |(&(state, class), (to, rules)): (&(u16, u16), &(u16, Vec<u16>))| {
            ((at(state), class), (at(*to), rules.clone()))
        };
        Table {
            states: self.states + by,
            rules: self.rules.clone(),
            records: self.records.iter().map(record).collect(),
            gotos: self
                .gotos
                .iter()
                .map(|(&(state, n), &to)| ((at(state), n), at(to)))
                .collect(),
            error_used: self.error_used,
        }
    }
}

// A word, and then a chain of 32 at the next term.
pub fn chain(dead: usize) -> Table {
    let mut table = Table {
        states: 3,
        ..Table::default()
    };
    table.shift(0, START, 1);
    table.shift(1, WORD, 2);
    table.chain((1, 2), SPLIT, 1, dead, 2);
    table
}

// A word and a split: 16 readings, each of height 3; HIGHER adds an entry to each.
fn spread() -> Table {
    let mut table = Table {
        states: 13,
        error_used: true,
        ..Table::default()
    };
    table.rules = (0..8).map(|left| (left, 1)).collect();
    table.shift(0, START, 1);
    table.shift(1, WORD, 2);
    table.reduce(2, SPLIT, vec![0, 1, 2, 3]);
    for i in 0..4 {
        table.gotos.extend([((1, i), 3 + i), ((1, 4 + i), 7 + i)]);
        table.reduce(3 + i, SPLIT, vec![4, 5, 6, 7]);
        table.shift(7 + i, SPLIT, 11);
    }
    table.shift(11, HIGHER, 12);
    table.shift(12, HIGHER, 12);
    table
}

// Recovery finds the error's record at height 1 only, and there a chain of 32.
pub fn recovering(dead: usize) -> Table {
    let mut table = spread();
    table.chain((1, 1), ERROR, 0, dead, 2);
    table
}

// Recovery walks 1,022 dead ends at each height above 3 and succeeds there; `unused` records of states that nobody reaches stand
// in front, so that each lookup passes them.
pub fn costly(unused: u16) -> Table {
    const ROW: u16 = 60;
    let mut table = spread();
    let mut from = 12;
    for level in 0..DOUBLINGS {
        let rule = table.rule(NOWHERE + 1 + level, 1);
        table.reduce(from, ERROR, vec![rule, rule]);
        from = table.state();
        table
            .gotos
            .extend([((11, NOWHERE + 1 + level), from), ((12, NOWHERE + 1 + level), from)]);
    }
    table.shift(11, ERROR, 11);
    table.shift(11, UNKNOWN, 11);
    let mut moved = table.moved(unused.div_ceil(ROW));
    (0..unused).for_each(|n| moved.shift(1 + n / ROW, WORD + n % ROW, 0));
    moved
}
