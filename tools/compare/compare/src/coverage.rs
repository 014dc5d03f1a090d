//! Counts what a run came upon.

use crate::cases::Step;
use crate::grammar::Grammar;
use crate::judge::Broken;
use crate::tables::conflicts;
use base::table::Table;
use std::collections::BTreeMap;

#[derive(Default)]
pub struct Coverage(BTreeMap<String, u64>);

impl Coverage {
    pub fn hit(&mut self, what: impl Into<String>) {
        *self.0.entry(what.into()).or_default() += 1;
    }

    pub fn count(&self, what: &str) -> u64 {
        self.0.get(what).copied().unwrap_or(0)
    }

    fn hit_if(&mut self, condition: bool, what: &str) {
        if condition {
            self.hit(what);
        }
    }

    pub fn grammar(&mut self, sort: &str, lalr: bool, grammar: &Grammar, table: &Table) {
        self.hit("grammars");
        self.hit(format!("grammars, sort: {sort}"));
        self.hit(format!("grammars, tables: {}", if lalr { "LALR(1)" } else { "LR(1)" }));
        let conflicts = conflicts(table);
        let has = |name: &str| format!("grammars, with: {name}");
        self.hit_if(conflicts.shift_reduce > 0, &has("shift/reduce conflicts"));
        self.hit_if(conflicts.reduce_reduce > 0, &has("reduce/reduce conflicts"));
        self.hit_if(conflicts.shift_reduce + conflicts.reduce_reduce == 0, &has("no conflicts"));
        self.hit_if(grammar.rules.iter().any(|r| r.right.is_empty()), &has("empty rules"));
        self.hit_if(grammar.has_empty_tail(), &has("a rule whose last symbol can be empty"));
        self.hit_if(grammar.is_cyclic(), &has("cycles"));
        self.hit_if(grammar.is_hidden_left_recursive(), &has("hidden left recursion"));
        self.hit_if(grammar.uses_error(), &has("the error token"));
        self.hit_if(table.states > 50, &has("more than 50 states"));
    }

    pub fn step(&mut self, step: &Step, broken: &Broken) {
        let place = if broken.none() { "inside" } else { "outside" };
        if step.is_term {
            self.hit_if(
                broken.only_alone(),
                "outside, terms with only: a chain that pops under its empty reduction, alone",
            );
            self.term(step, place);
        } else if let Some(word) = step.block.split(' ').next() {
            let yes = if step.block.contains(" yes") { "yes" } else { "no" };
            let refused = step.watch.refusal != 0;
            self.hit_if(
                ["takes", "canend", "canrecover"].contains(&word) && !refused,
                &format!("{place}, {word}: {yes}"),
            );
            self.hit_if(refused, &format!("{place}, {word}: refused"));
            self.hit_if(word == "stack", &format!("{place}, stack"));
        }
    }

    fn term(&mut self, step: &Step, place: &str) {
        let lines = |mark: &str| step.block.lines().filter(|l| l.starts_with(mark)).count();
        let answer = step.block.split(' ').nth(1).unwrap_or("");
        let watch = &step.watch;
        self.hit(format!("{place}, terms"));
        self.hit(format!("{place}, answer {answer}"));
        self.hit(format!("{place}, readings after a term: {}", readings(lines(" r"))));
        let has = |name: &str| format!("{place}, terms with: {name}");
        self.hit_if(lines(" e") > 0, &has("error records"));
        self.hit_if(watch.walked_most > 0, &has("reductions"));
        self.hit_if(watch.walked_most > 32, &has("more than 32 reductions in one planning"));
        self.hit_if(watch.recovery, &has("recovery"));
        self.hit_if(watch.recovered && answer == "0", &has("recovery that succeeds"));
        self.hit_if(watch.recovery && watch.popped_most > 0, &has("recovery that pops"));
        self.hit_if(watch.stayed > 0, &has("recovery where a reading stays"));
        self.hit_if(watch.recovered && lines(" r") > 1, &has("recovery that leaves several readings"));
        self.hit_if(watch.action_refused, &has("refused actions"));
        self.hit_if(watch.pops_under_empty, &has("a chain that pops under its empty reduction"));
        self.hit_if(watch.pops_beside, &has("a chain that pops under its empty reduction, beside another way"));
        self.hit_if(watch.shared_reached, &has("recovery that reaches a shared entry"));
    }

    pub fn print(&self) {
        for (what, count) in &self.0 {
            println!("{count:>10}  {what}");
        }
    }
}

fn readings(count: usize) -> &'static str {
    match count {
        0 => "none",
        1 => "1",
        2 => "2",
        3..=4 => "3 to 4",
        5..=8 => "5 to 8",
        9..=15 => "9 to 15",
        _ => "16",
    }
}
