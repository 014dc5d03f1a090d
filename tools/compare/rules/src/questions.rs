//! The three questions: yes or no, and the number of a refusal (0: none).

use crate::Machine;
use crate::watch::Watch;
use base::{ERROR, FIRST_TERM};

impl Machine {
    pub fn takes(&mut self, class: u32) -> (bool, u8) {
        if self.is_consumed() {
            return (false, 0);
        }
        if class < FIRST_TERM as u32 || class >= self.classes() as u32 {
            return (false, 5);
        }
        self.ask_tops(class as u16)
    }

    pub fn can_recover(&mut self) -> (bool, u8) {
        if !self.lookup.table.error_used {
            return (false, 0);
        }
        let mut stacks = Vec::new();
        for reading in &self.readings {
            stacks.extend((0..self.cells.height(reading.top)).map(|n| self.cells.down(reading.top, n)));
        }
        self.ask(stacks, ERROR)
    }

    pub(crate) fn ask_tops(&mut self, class: u16) -> (bool, u8) {
        let tops = self.readings.iter().map(|reading| reading.top).collect();
        self.ask(tops, class)
    }

    /// Plans the stacks in order, up to the first yes or refusal.
    fn ask(&mut self, stacks: Vec<u32>, class: u16) -> (bool, u8) {
        self.watch = Watch::default();
        for top in stacks {
            match self.plan(top, class, &mut 0, usize::MAX) {
                Ok(plan) if plan.ends() => return self.asked(true, 0),
                Ok(_) => {}
                Err(refusal) => return self.asked(false, refusal),
            }
        }
        self.asked(false, 0)
    }

    /// A question runs nothing, so of the conditions only the limits count for it.
    fn asked(&mut self, yes: bool, refusal: u8) -> (bool, u8) {
        (self.watch.pops_under_empty, self.watch.pops_beside) = (false, false);
        self.watch.refusal = refusal;
        (yes, refusal)
    }
}
