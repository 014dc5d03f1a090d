//! Following the chains of a plan with actions.

use crate::Reading;
use crate::cells::Cells;
use crate::lookup::Lookup;
use crate::walk::{Plan, Way};
use base::answers::{Entry, ErrorRecord};
use base::table::Rule;

/// What applying left: the chains that succeeded and the actions that were refused, each in order.
#[derive(Default)]
pub struct Results {
    pub readings: Vec<Reading>,
    pub errors: Vec<ErrorRecord>,
}

pub fn run(lookup: &Lookup, cells: &mut Cells, plan: &Plan, reading: Reading, last: Entry, results: &mut Results) {
    for way in &plan.ways {
        match reduce(lookup, cells, way, reading) {
            Ok(reduced) => run(lookup, cells, &way.then, reduced, last, results),
            Err(error) => results.errors.push(error),
        }
    }
    if let Some(state) = plan.shift {
        let top = cells.push(reading.top, Entry { state, ..last });
        results.readings.push(Reading { top, mark: reading.mark });
    }
}

fn reduce(lookup: &Lookup, cells: &mut Cells, way: &Way, reading: Reading) -> Result<Reading, ErrorRecord> {
    let rule = lookup.rule(way.rule);
    let items = rule.len as u32;
    let under = cells.down(reading.top, items);
    let Some(value) = act(cells, rule, reading.top) else {
        let state = cells.entry(under).state;
        return Err(ErrorRecord { rule: way.rule, state, mark: reading.mark });
    };
    let (start, end) = cells.span(reading.top, items);
    let top = cells.push(under, Entry { state: way.target, value, start, end });
    Ok(Reading { top, mark: reading.mark.wrapping_add(rule.mark) })
}

/// The value that a rule gives, or `None` if its action refuses.
fn act(cells: &Cells, rule: &Rule, top: u32) -> Option<u32> {
    let item = |number: u8| cells.entry(cells.down(top, (rule.len - number) as u32)).value;
    match rule.kind {
        0 => Some(0),
        1 => Some(item(rule.pick)),
        2 => item(1).checked_mul(rule.low)?.checked_add(item(rule.pick)),
        _ => Some(item(rule.pick)).filter(|value| (rule.low..=rule.high).contains(value)),
    }
}
