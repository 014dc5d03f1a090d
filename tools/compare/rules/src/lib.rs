//! The rules of the reading machine, plainly: written apart from the definitions, with a watch on the conditions under which the
//! original must do the same.

mod apply;
mod cells;
mod feed;
mod lookup;
mod questions;
mod recovery;
pub mod replay;
mod walk;
pub mod watch;

use apply::Results;
use base::answers::Entry;
use base::table::Table;
use base::{END, START};
use cells::Cells;
use lookup::Lookup;
use walk::{Plan, Walk};
use watch::Watch;

pub const READINGS: usize = 16;
pub const HEIGHT: u32 = 64;
pub const CHAIN: u32 = 32;
pub const WALK: u32 = 1024;

/// A reading: its top cell and its mark.
#[derive(Clone, Copy)]
pub struct Reading {
    top: u32,
    mark: u32,
}

/// A machine with its table and its readings. No readings: consumed.
pub struct Machine {
    lookup: Lookup,
    cells: Cells,
    readings: Vec<Reading>,
    walked: u64,
    /// What the last command came upon.
    pub watch: Watch,
}

impl Machine {
    pub fn start(table: Table) -> Machine {
        let lookup = Lookup::new(table);
        let mut cells = Cells::default();
        let state = lookup.record(0, START).and_then(|r| r.shift).expect("a right table shifts the start");
        let top = cells.bottom(Entry { state, value: 0, start: 0, end: 0 });
        let readings = vec![Reading { top, mark: 0 }];
        Machine { lookup, cells, readings, walked: 0, watch: Watch::default() }
    }

    pub fn is_consumed(&self) -> bool {
        self.readings.is_empty()
    }

    pub fn classes(&self) -> u16 {
        self.lookup.table.classes
    }

    pub fn readings(&self) -> usize {
        self.readings.len()
    }

    /// Plans one stack at one class: its whole walk. `ended` chains ended before, and more than `room` are refused.
    fn plan(&mut self, top: u32, class: u16, ended: &mut usize, room: usize) -> Result<Plan, u8> {
        let before = self.cells.len();
        let mut walk = Walk::new(&self.lookup, &mut self.cells, class, *ended, room);
        let plan = walk.whole(top);
        *ended = walk.ended;
        self.walked += walk.tried as u64;
        self.watch.walked_most = self.watch.walked_most.max(walk.tried);
        self.watch.pops_under_empty |= walk.pops_under_empty;
        self.watch.pops_beside |= walk.pops_beside;
        self.cells.cut(before);
        plan
    }

    /// Follows the chains of a plan with actions; `last` is the entry that each chain's shift pushes, but for its state.
    fn run(&mut self, plan: &Plan, reading: Reading, last: Entry, results: &mut Results) {
        apply::run(&self.lookup, &mut self.cells, plan, reading, last, results);
    }

    fn entries_from_top(&self, reading: Reading) -> Vec<Entry> {
        self.cells.entries_down(reading.top)
    }

    pub fn can_end(&mut self) -> (bool, u8) {
        self.ask_tops(END)
    }
}
