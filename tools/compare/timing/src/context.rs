//! RustyLR's `Context`, unchanged, without the words of the replay format around it.

use crate::actions::{Driven, Loaded, Start, Value, choose, ready};
use crate::symbols::{Class, Fed};
use base::script::Term;
use base::table::Table;
use original::parser::nondeterministic::Context;

/// A table in one of RustyLR's two layouts.
#[derive(Clone, Copy)]
pub struct Original(&'static Loaded);

/// A line's context. The lines' tables do not use the error class.
pub struct Reader(Context<Driven<false>, Value, Start, u16, 4>);

impl Original {
    pub fn new(table: &Table, dense: bool) -> Original {
        assert!(!table.error_used);
        Original(ready(table.clone(), dense))
    }

    pub fn start(self) -> Reader {
        choose(self.0);
        Reader(Context::new(0))
    }
}

impl Reader {
    /// The answer's number, as the comparison says it.
    pub fn feed(&mut self, term: &Term) -> u32 {
        let fed = Fed { class: Class(term.class as u16), value: term.value };
        match self.0.feed_location(fed, term.start..term.end) {
            Ok(_) => 0,
            Err(error) if error.context_consumed => 4,
            Err(_) => 12,
        }
    }

    /// The marks of the readings, in their order.
    pub fn marks(&self) -> Vec<u32> {
        self.0.userdata_all().copied().collect()
    }
}
