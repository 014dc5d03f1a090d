//! The rules speaking the replay format.

use crate::Machine;
use crate::watch::Watch;
use base::answers::{put_fed, put_question, put_reading, put_stack};
use base::script::{Command, line_of, word};
use base::speaker::Speaker;
use base::table::Table;

#[derive(Default)]
pub struct Replay {
    table: Option<Table>,
    pub machine: Option<Machine>,
}

impl Replay {
    /// What the last command came upon.
    pub fn watch(&self) -> Watch {
        self.machine.as_ref().map(|m| m.watch).unwrap_or_default()
    }

    fn start(&mut self, out: &mut String) {
        let Some(table) = &self.table else {
            out.push_str("start 2\n");
            return;
        };
        let machine = Machine::start(table.clone());
        out.push_str("start 0\n");
        put_state(&machine, out);
        self.machine = Some(machine);
    }

    fn load(&mut self, file: &[u8], out: &mut String) {
        *self = Replay { table: Table::decode(file), machine: None };
        out.push_str(if self.table.is_some() { "table 0\n" } else { "table 2\n" });
    }
}

impl Speaker for Replay {
    fn answer(&mut self, command: &Command, out: &mut String) {
        match (command, &mut self.machine) {
            (Command::Case(_), _) => {
                *self = Replay::default();
                out.push_str(&line_of(command));
                out.push('\n');
            }
            (Command::Table(file), _) => self.load(file, out),
            (Command::Start, _) => self.start(out),
            (_, Some(machine)) => answer_with(machine, command, out),
            (_, None) => {
                out.push_str(word(command));
                out.push_str(" none\n");
            }
        }
    }
}

fn answer_with(machine: &mut Machine, command: &Command, out: &mut String) {
    let question = |out: &mut String, (yes, refusal)| put_question(out, &line_of(command), yes, refusal);
    match command {
        Command::Term(term) => {
            let fed = machine.feed(*term);
            put_fed(out, "term", fed.answer, &fed.errors, fed.walked);
            put_state(machine, out);
        }
        Command::Takes(class) => question(out, machine.takes(*class)),
        Command::CanEnd => question(out, machine.can_end()),
        Command::CanRecover => question(out, machine.can_recover()),
        Command::Stack(number) => stack(machine, *number, out),
        _ => out.push_str("end unknown\n"),
    }
}

fn stack(machine: &Machine, number: u32, out: &mut String) {
    match machine.readings.get(number as usize) {
        Some(&reading) => put_stack(out, 0, reading.mark, &machine.entries_from_top(reading)),
        None => put_stack(out, if machine.is_consumed() { 4 } else { 5 }, 0, &[]),
    }
}

fn put_state(machine: &Machine, out: &mut String) {
    if machine.is_consumed() {
        out.push_str(" consumed\n");
    }
    for &reading in &machine.readings {
        put_reading(out, reading.mark, machine.entries_from_top(reading).into_iter().rev());
    }
}
