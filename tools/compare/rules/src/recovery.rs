//! Recovery: its two stages.

use crate::apply::Results;
use crate::{Machine, READINGS, Reading};
use base::ERROR;
use base::answers::Entry;

impl Machine {
    pub(crate) fn recover(&mut self, class: u16, entry: Entry) -> Result<(u8, Results), u8> {
        self.watch.recovery = true;
        let waiting = self.readings.clone();
        let mut recovered = self.recover_all(&waiting)?;
        if recovered.readings.is_empty() {
            self.record_unplanned(waiting.iter().rev(), &mut recovered);
            return Ok((12, recovered));
        }
        self.watch.recovered = true;
        let results = self.take_term(recovered, class, entry)?;
        Ok((if results.readings.is_empty() { 12 } else { 0 }, results))
    }

    /// First stage: each reading, first to last, looks for a height that takes the error class.
    fn recover_all(&mut self, readings: &[Reading]) -> Result<Results, u8> {
        let mut recovered = Results::default();
        let mut ended = 0;
        for (number, &reading) in readings.iter().enumerate() {
            self.recover_one(reading, &readings[number + 1..], &mut ended, &mut recovered)?;
        }
        Ok(recovered)
    }

    fn recover_one(
        &mut self,
        reading: Reading,
        waiting: &[Reading],
        ended: &mut usize,
        recovered: &mut Results,
    ) -> Result<(), u8> {
        let height = self.cells.height(reading.top);
        let mut top = reading.top;
        for popped in 0..height {
            if waiting.iter().chain(&recovered.readings).any(|other| self.cells.holds(other.top, top)) {
                self.watch.shared_reached = true;
                return Ok(());
            }
            let plan = self.plan(top, ERROR, ended, READINGS)?;
            if plan.ends() {
                self.watch.popped_most = self.watch.popped_most.max(popped);
                let last = self.error_entry(reading.top, top, popped);
                self.run(&plan, Reading { top, ..reading }, last, recovered);
                return Ok(());
            }
            top = self.cells.below(top);
        }
        Ok(())
    }

    /// The error entry over the popped ones, or empty at the end of the top entry if none were popped.
    fn error_entry(&self, highest: u32, top: u32, popped: u32) -> Entry {
        let (start, end) = if popped == 0 { self.cells.span(top, 0) } else { self.cells.span(highest, popped) };
        Entry { state: 0, value: 0, start, end }
    }

    /// Second stage: the recovered readings, last to first, take the term or stay.
    fn take_term(&mut self, recovered: Results, class: u16, entry: Entry) -> Result<Results, u8> {
        let mut plans = Vec::new();
        let mut ended = 0;
        for &reading in recovered.readings.iter().rev() {
            let plan = self.plan(reading.top, class, &mut ended, READINGS)?;
            if !plan.ends() {
                ended += 1;
                self.watch.stayed += 1;
                if ended > READINGS {
                    return Err(11);
                }
            }
            plans.push((reading, plan));
        }
        let mut results = Results { readings: Vec::new(), errors: recovered.errors };
        for (reading, plan) in plans {
            if plan.ends() {
                self.run(&plan, reading, entry, &mut results);
            } else {
                let stays = self.grown(reading, entry.end);
                results.readings.push(stays);
            }
        }
        Ok(results)
    }

    /// The reading with its error entry ending where the term ends.
    fn grown(&mut self, reading: Reading, end: u32) -> Reading {
        let entry = Entry { end, ..*self.cells.entry(reading.top) };
        let top = self.cells.push(self.cells.below(reading.top), entry);
        Reading { top, ..reading }
    }
}
