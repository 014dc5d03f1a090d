//! The walk of one stack at one class: all chains, without actions.

use crate::cells::Cells;
use crate::lookup::Lookup;
use crate::{CHAIN, HEIGHT, WALK};
use base::answers::Entry;
use base::table::Record;

/// What can be done at a stack: the reductions below which a chain ends, then the shift.
#[derive(Default)]
pub struct Plan {
    pub ways: Vec<Way>,
    pub shift: Option<u16>,
}

/// A reduction and what follows it.
pub struct Way {
    pub rule: u16,
    pub target: u16,
    pub then: Plan,
}

impl Plan {
    /// Whether any chain ends.
    pub fn ends(&self) -> bool {
        self.shift.is_some() || !self.ways.is_empty()
    }
}

/// How a chain got to where it is.
#[derive(Clone, Copy, Default)]
struct Path {
    reductions: u32,
    /// Height of the highest entry that lies under an empty reduction of this chain.
    under_empty: u32,
    /// The same for empty reductions that have another rule or a shift beside them.
    under_empty_beside: u32,
    /// Whether the chain has popped such an entry, of the first sort and of the second.
    popped: bool,
    popped_beside: bool,
}

impl Path {
    fn reduced(self, items: u32, height_left: u32, beside: bool) -> Path {
        Path {
            reductions: self.reductions + 1,
            under_empty: if items == 0 { height_left } else { self.under_empty },
            under_empty_beside: if items == 0 && beside { height_left } else { self.under_empty_beside },
            popped: self.popped || height_left < self.under_empty,
            popped_beside: self.popped_beside || height_left < self.under_empty_beside,
        }
    }
}

pub struct Walk<'a> {
    lookup: &'a Lookup,
    cells: &'a mut Cells,
    class: u16,
    room: usize,
    pub ended: usize,
    pub tried: u32,
    pub pops_under_empty: bool,
    pub pops_beside: bool,
}

impl<'a> Walk<'a> {
    pub fn new(lookup: &'a Lookup, cells: &'a mut Cells, class: u16, ended: usize, room: usize) -> Self {
        Walk { lookup, cells, class, room, ended, tried: 0, pops_under_empty: false, pops_beside: false }
    }

    pub fn whole(&mut self, top: u32) -> Result<Plan, u8> {
        self.state(top, Path::default())
    }

    fn state(&mut self, top: u32, path: Path) -> Result<Plan, u8> {
        let lookup = self.lookup;
        let Some(record) = lookup.record(self.cells.entry(top).state, self.class) else {
            return Ok(Plan::default());
        };
        if record.shift.is_some() && self.cells.height(top) + 1 > HEIGHT {
            return Err(8);
        }
        let ways = self.rules(record, top, path)?;
        if record.shift.is_some() {
            self.end_chain(path)?;
        }
        Ok(Plan { ways, shift: record.shift })
    }

    fn rules(&mut self, record: &Record, top: u32, path: Path) -> Result<Vec<Way>, u8> {
        let mut ways = Vec::new();
        let beside = record.shift.is_some() || record.rules.len() > 1;
        for &rule in &record.rules {
            let way = self.reduction(rule, top, path, beside)?;
            if way.then.ends() {
                ways.push(way);
            }
        }
        Ok(ways)
    }

    fn reduction(&mut self, number: u16, top: u32, path: Path, beside: bool) -> Result<Way, u8> {
        let rule = self.lookup.rule(number);
        let (items, height) = (rule.len as u32, self.cells.height(top));
        self.tried += 1;
        if self.tried > WALK {
            return Err(10);
        }
        if path.reductions + 1 > CHAIN {
            return Err(9);
        }
        if items >= height {
            return Err(6);
        }
        let under = self.cells.down(top, items);
        let target = self.lookup.goto(self.cells.entry(under).state, rule.left).ok_or(7)?;
        if height - items + 1 > HEIGHT {
            return Err(8);
        }
        let next = self.cells.push(under, Entry { state: target, value: 0, start: 0, end: 0 });
        let then = self.state(next, path.reduced(items, height - items, beside))?;
        Ok(Way { rule: number, target, then })
    }

    fn end_chain(&mut self, path: Path) -> Result<(), u8> {
        self.pops_under_empty |= path.popped;
        self.pops_beside |= path.popped_beside;
        self.ended += 1;
        if self.ended > self.room { Err(11) } else { Ok(()) }
    }
}
