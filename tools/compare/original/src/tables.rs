//! The original's table layouts, filled from a table file; each goto lookup is counted, which is the walked count.

use crate::cap;
use crate::symbols::{Class, NonTerm};
use arrayvec::ArrayVec;
use base::table::Table;
use original::parser::state::IntermediateState;
use original::parser::table::{
    DenseFlatTables, IntermediateTables, ParserTables, RuleInfo, ShiftTarget, SparseFlatTables, TermActionRef,
};

pub type Rules = ArrayVec<u16, 4>;
type Sparse = SparseFlatTables<Class, NonTerm, Rules, u16>;
type Dense = DenseFlatTables<Class, NonTerm, Rules, u16>;

/// One of the two layouts that RustyLR's generator chooses from.
pub enum Layout {
    Sparse(Sparse),
    Dense(Dense),
}

impl Layout {
    pub fn new(table: &Table, dense: bool) -> Layout {
        let rows = intermediate(table);
        if dense { Layout::Dense(rows.into()) } else { Layout::Sparse(rows.into()) }
    }
}

fn intermediate(table: &Table) -> IntermediateTables<Class, NonTerm> {
    let rules = table.rules.iter().map(|r| RuleInfo { lhs: NonTerm(r.left), len: r.len as usize }).collect();
    IntermediateTables { state_rows: (0..table.states).map(|state| row(table, state)).collect(), rules }
}

fn row(table: &Table, state: u16) -> IntermediateState<Class, NonTerm> {
    let target = |state: u16| ShiftTarget::new(state as usize, true);
    let records = || table.records.iter().filter(move |r| r.state == state);
    let rules = |rules: &[u16]| rules.iter().map(|&rule| rule as usize).collect();
    IntermediateState {
        shift_goto_map_term: records().filter_map(|r| Some((Class(r.class), target(r.shift?)))).collect(),
        shift_goto_map_nonterm: table
            .gotos
            .iter()
            .filter(|g| g.state == state)
            .map(|g| (NonTerm(g.nonterm), target(g.target)))
            .collect(),
        reduce_map: records().filter(|r| !r.rules.is_empty()).map(|r| (Class(r.class), rules(&r.rules))).collect(),
    }
}

macro_rules! either {
    ($self:expr, $tables:ident => $call:expr) => {
        match $self {
            Layout::Sparse($tables) => $call,
            Layout::Dense($tables) => $call,
        }
    };
}

impl ParserTables for Layout {
    type TermClass = Class;
    type NonTerm = NonTerm;
    type ReduceRules = Rules;
    type StateIndex = u16;

    fn term_action(&self, state: usize, class: Class) -> Option<TermActionRef<'_, Rules, u16>> {
        either!(self, tables => tables.term_action(state, class))
    }

    fn shift_goto_nonterm(&self, state: usize, nonterm: NonTerm) -> Option<ShiftTarget<u16>> {
        cap::count_lookup();
        either!(self, tables => tables.shift_goto_nonterm(state, nonterm))
    }

    fn is_accept(&self, state: usize) -> bool {
        either!(self, tables => tables.is_accept(state))
    }

    fn expected_shift_term(&self, state: usize) -> impl Iterator<Item = Class> + '_ {
        either!(self, tables => tables.expected_shift_term(state).collect::<Vec<_>>()).into_iter()
    }

    fn expected_shift_nonterm(&self, state: usize) -> impl Iterator<Item = NonTerm> + '_ {
        either!(self, tables => tables.expected_shift_nonterm(state).collect::<Vec<_>>()).into_iter()
    }

    fn expected_reduce_rule(&self, state: usize) -> impl Iterator<Item = impl original::parser::table::Index> + '_ {
        use original::parser::table::Index;
        either!(self, tables => tables.expected_reduce_rule(state).map(|r| r.into_usize()).collect::<Vec<_>>())
            .into_iter()
    }

    fn rule(&self, rule: usize) -> &RuleInfo<NonTerm> {
        either!(self, tables => tables.rule(rule))
    }

    fn state_count(&self) -> usize {
        either!(self, tables => tables.state_count())
    }

    fn rule_count(&self) -> usize {
        either!(self, tables => tables.rule_count())
    }
}
