//! Leaves out the states, rules, nonterminals and classes that a table counts but nobody names.

use crate::cases::Case;
use base::script::Command;
use base::table::Table;

pub fn tidy(case: &Case) -> Case {
    let mut tidied = case.clone();
    drop_rules(&mut tidied.table);
    drop_states(&mut tidied.table);
    drop_nonterms(&mut tidied.table);
    drop_classes(&mut tidied);
    tidied
}

/// For each old number its new one, where only the used ones count.
fn renumbered(used: &[bool]) -> Vec<u16> {
    let mut next = 0;
    let mut numbers = Vec::new();
    for &is_used in used {
        numbers.push(next);
        next += is_used as u16;
    }
    numbers
}

fn count(used: &[bool]) -> u16 {
    used.iter().filter(|&&u| u).count() as u16
}

fn drop_rules(table: &mut Table) {
    let mut used = vec![false; table.rules.len()];
    table.records.iter().flat_map(|r| &r.rules).for_each(|&rule| used[rule as usize] = true);
    let numbers = renumbered(&used);
    table.records.iter_mut().flat_map(|r| &mut r.rules).for_each(|rule| *rule = numbers[*rule as usize]);
    let mut flags = used.iter();
    table.rules.retain(|_| *flags.next().expect("a flag for each rule"));
}

fn drop_states(table: &mut Table) {
    let mut used = vec![false; table.states as usize];
    used[0] = true;
    let of_records = table.records.iter().flat_map(|r| [Some(r.state), r.shift]).flatten();
    let of_gotos = table.gotos.iter().flat_map(|g| [g.state, g.target]);
    of_records.chain(of_gotos).for_each(|state| used[state as usize] = true);
    let numbers = renumbered(&used);
    let change = |state: &mut u16| *state = numbers[*state as usize];
    table.states = count(&used);
    for record in &mut table.records {
        change(&mut record.state);
        record.shift.iter_mut().for_each(change);
    }
    for goto in &mut table.gotos {
        change(&mut goto.state);
        change(&mut goto.target);
    }
}

fn drop_nonterms(table: &mut Table) {
    let mut used = vec![false; table.nonterms as usize];
    table.rules.iter().for_each(|r| used[r.left as usize] = true);
    table.gotos.iter().for_each(|g| used[g.nonterm as usize] = true);
    let numbers = renumbered(&used);
    table.nonterms = count(&used).max(1);
    table.rules.iter_mut().for_each(|r| r.left = numbers[r.left as usize]);
    table.gotos.iter_mut().for_each(|g| g.nonterm = numbers[g.nonterm as usize]);
}

/// Leaves out the classes behind the last one that a record or a command names.
fn drop_classes(case: &mut Case) {
    let of_records = case.table.records.iter().map(|r| r.class as u32);
    let of_commands = case.commands.iter().filter_map(|command| match command {
        Command::Term(term) => Some(term.class),
        Command::Takes(class) => Some(*class),
        _ => None,
    });
    let last = of_records.chain(of_commands).max().unwrap_or(0);
    case.table.classes = (last as u16 + 1).clamp(4, case.table.classes);
}
