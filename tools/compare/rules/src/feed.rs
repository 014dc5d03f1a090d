//! Feeding a term, up to the point where recovery starts.

use crate::apply::Results;
use crate::walk::Plan;
use crate::watch::Watch;
use crate::{Machine, READINGS, Reading};
use base::answers::{Entry, ErrorRecord};
use base::script::Term;
use base::{FIRST_TERM, NONE};

/// The outcome of a feed.
pub struct Fed {
    pub answer: u8,
    pub errors: Vec<ErrorRecord>,
    pub walked: u64,
}

impl Fed {
    fn refused(answer: u8) -> Fed {
        Fed { answer, errors: Vec::new(), walked: 0 }
    }
}

impl Machine {
    pub fn feed(&mut self, term: Term) -> Fed {
        self.watch = Watch::default();
        if self.is_consumed() {
            return Fed::refused(4);
        }
        if term.class < FIRST_TERM as u32 || term.class >= self.classes() as u32 || term.start > term.end {
            return Fed::refused(5);
        }
        self.walked = 0;
        let before = self.cells.len();
        let entry = Entry { state: 0, value: term.value, start: term.start, end: term.end };
        match self.take(term.class as u16, entry) {
            Ok((answer, results)) => self.settle(answer, results),
            Err(refusal) => {
                self.cells.cut(before);
                self.watch.refusal = refusal;
                Fed::refused(refusal)
            }
        }
    }

    fn settle(&mut self, answer: u8, results: Results) -> Fed {
        self.readings = results.readings;
        self.watch.action_refused = results.errors.iter().any(|e| e.rule != NONE);
        Fed { answer, errors: results.errors, walked: self.walked }
    }

    fn take(&mut self, class: u16, entry: Entry) -> Result<(u8, Results), u8> {
        let plans = self.plan_all(class)?;
        let mut results = Results::default();
        for (reading, plan) in &plans {
            self.run(plan, *reading, entry, &mut results);
        }
        let unplanned: Vec<Reading> =
            plans.iter().filter(|(_, plan)| !plan.ends()).map(|(reading, _)| *reading).collect();
        if !results.readings.is_empty() {
            self.record_unplanned(unplanned.iter().rev(), &mut results);
            return Ok((0, results));
        }
        if !self.lookup.table.error_used || unplanned.len() < plans.len() {
            self.record_unplanned(unplanned.iter(), &mut results);
            results.readings = unplanned;
            return Ok((12, results));
        }
        self.recover(class, entry)
    }

    /// The plans of all readings, last to first.
    fn plan_all(&mut self, class: u16) -> Result<Vec<(Reading, Plan)>, u8> {
        let mut ended = 0;
        let mut plans = Vec::new();
        for reading in self.readings.clone().into_iter().rev() {
            plans.push((reading, self.plan(reading.top, class, &mut ended, READINGS)?));
        }
        Ok(plans)
    }

    pub(crate) fn record_unplanned<'a>(&self, unplanned: impl Iterator<Item = &'a Reading>, results: &mut Results) {
        results.errors.extend(unplanned.map(|reading| ErrorRecord {
            rule: NONE,
            state: self.cells.entry(reading.top).state,
            mark: reading.mark,
        }));
    }
}
