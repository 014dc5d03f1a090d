//! A run: batches of cases through all programs, judged and counted.

use crate::batch::batch;
use crate::cases::{Case, Step};
use crate::coverage::Coverage;
use crate::findings::Findings;
use crate::judge::{broken_at, class_of, first_difference};
use crate::programs::{Outcome, Program};
use crate::sample::Sample;
use crate::shrink::Builds;
use std::time::{Duration, Instant};

/// How long a run goes on, and with what.
pub struct Plan {
    pub first_seed: u64,
    pub grammars: usize,
    /// Tables that no grammar makes instead.
    pub arbitrary: bool,
    /// Stops after this many terms inside the conditions, or this long.
    pub terms: u64,
    pub most_time: Duration,
    /// The debug build takes part in every batch whose seed this divides.
    pub debug_every: u64,
}

pub struct Run<'a> {
    pub builds: &'a Builds,
    pub other: &'a Program,
    pub coverage: Coverage,
    pub findings: Findings,
    pub sample: Sample,
    pub last_seed: u64,
}

/// All that is known of a batch before it is judged.
struct Batch {
    cases: Vec<Case>,
    steps: Vec<Vec<Step>>,
    debug: Option<Vec<Outcome>>,
    release: Vec<Outcome>,
    other: Vec<Outcome>,
}

impl Run<'_> {
    pub fn go(&mut self, plan: &Plan) -> Result<(), String> {
        let begun = Instant::now();
        let mut seed = plan.first_seed;
        while self.coverage.count("inside, terms") < plan.terms && begun.elapsed() < plan.most_time {
            let batch = self.batch(seed, plan)?;
            for number in 0..batch.cases.len() {
                self.judge(&batch, number);
            }
            self.last_seed = seed;
            seed += 1;
        }
        Ok(())
    }

    fn batch(&mut self, seed: u64, plan: &Plan) -> Result<Batch, String> {
        let cases = batch(seed, plan.grammars, plan.arbitrary, &mut self.coverage);
        let steps: Vec<Vec<Step>> = cases.iter().map(Case::steps).collect();
        let scripts: Vec<String> = cases.iter().map(Case::script).collect();
        let lengths: Vec<usize> = steps.iter().map(Vec::len).collect();
        let with_debug = seed.is_multiple_of(plan.debug_every);
        let debug = if with_debug { Some(self.builds.debug.run(&scripts, &lengths)?) } else { None };
        let release = self.builds.release.run(&scripts, &lengths)?;
        let other = self.other.run(&scripts, &lengths)?;
        Ok(Batch { cases, steps, debug, release, other })
    }

    fn judge(&mut self, batch: &Batch, number: usize) {
        let (case, steps) = (&batch.cases[number], &batch.steps[number]);
        let broken = broken_at(steps);
        for (step, broken) in steps.iter().zip(&broken) {
            self.coverage.step(step, broken);
        }
        self.coverage.hit("cases");
        if let Some(difference) = first_difference(steps, &batch.other[number]) {
            self.findings.other_differs(case, &difference);
        }
        let release = first_difference(steps, &batch.release[number]);
        let debug = match &batch.debug {
            Some(outcomes) => {
                self.coverage.hit("cases, with the debug build");
                first_difference(steps, &outcomes[number])
            }
            None => release.clone(),
        };
        match class_of(&broken, &debug, &release) {
            Some((class, _)) if batch.debug.is_some() || class.broken.none() => self.findings.differs(case, class),
            Some(_) => self.coverage.hit("cases, outside and different, release build only"),
            None if broken.iter().any(|b| !b.none()) => self.coverage.hit("cases, outside at some point but the same"),
            None => {
                self.coverage.hit("cases, inside throughout and the same");
                self.sample.offer(case, &batch.release[number]);
            }
        }
    }
}
