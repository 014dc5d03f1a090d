//! Cases: a table and commands, with what the rules say to each.

use base::script::{Command, line_of, parse};
use base::speaker::Speaker;
use base::table::Table;
use rules::replay::Replay;
use rules::watch::Watch;

#[derive(Clone)]
pub struct Case {
    pub name: String,
    pub table: Table,
    /// What follows `table` and `start`.
    pub commands: Vec<Command>,
}

/// What the rules say to one command.
pub struct Step {
    pub block: String,
    pub watch: Watch,
    /// It changes the readings; else it is a question.
    pub is_term: bool,
}

impl Case {
    fn all_commands(&self) -> Vec<Command> {
        let mut all = vec![Command::Case(self.name.clone()), Command::Table(self.table.encode()), Command::Start];
        all.extend(self.commands.iter().cloned());
        all
    }

    pub fn script(&self) -> String {
        self.all_commands().iter().map(|c| line_of(c) + "\n").collect()
    }

    /// The steps by the rules, from `case` on.
    pub fn steps(&self) -> Vec<Step> {
        let mut replay = Replay::default();
        self.all_commands()
            .iter()
            .map(|command| {
                let mut block = String::new();
                replay.answer(command, &mut block);
                let is_term = matches!(command, Command::Term(_));
                let asks = matches!(command, Command::Takes(_) | Command::CanEnd | Command::CanRecover);
                let watch = if is_term || asks { replay.watch() } else { Watch::default() };
                Step { block, watch, is_term }
            })
            .collect()
    }

    /// A rough measure: what a reader has to look at.
    pub fn size(&self) -> usize {
        let records: usize = self.table.records.iter().map(|r| 1 + r.rules.len()).sum();
        let table = records + self.table.gotos.len() + self.table.rules.len() + self.table.states as usize;
        table + 3 * self.commands.len()
    }
}

/// The cases of a script; those with a wrong table or without `start` as their third line are left out.
pub fn cases_of(script: &str) -> Result<Vec<Case>, String> {
    let mut cases = Vec::new();
    let mut lines: Vec<Command> = Vec::new();
    for line in script.lines().chain(["case end"]) {
        match parse(line)? {
            Some(next @ Command::Case(_)) => {
                cases.extend(case_of(std::mem::replace(&mut lines, vec![next])));
            }
            Some(command) => lines.push(command),
            None => {}
        }
    }
    Ok(cases)
}

fn case_of(lines: Vec<Command>) -> Option<Case> {
    let mut lines = lines.into_iter();
    match (lines.next(), lines.next(), lines.next()) {
        (Some(Command::Case(name)), Some(Command::Table(file)), Some(Command::Start)) => {
            Some(Case { name, table: Table::decode(&file)?, commands: lines.collect() })
        }
        _ => None,
    }
}
