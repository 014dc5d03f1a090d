//! Supplied: one row of the table as `table.rs` reads it.

use crate::parser::table::ShiftTarget;

pub struct IntermediateState<TermClass, NonTerm> {
    pub shift_goto_map_term: Vec<(TermClass, ShiftTarget<usize>)>,
    pub shift_goto_map_nonterm: Vec<(NonTerm, ShiftTarget<usize>)>,
    pub reduce_map: Vec<(TermClass, Vec<usize>)>,
}
