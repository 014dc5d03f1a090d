//! A table in words, as comment lines of a script.

use base::table::{Record, Rule, Table};

pub fn describe(table: &Table) -> String {
    let used = if table.error_used { "used" } else { "unused" };
    let mut text = format!(
        "# {} states, {} classes, {} nonterminals, error {used}\n",
        table.states, table.classes, table.nonterms
    );
    for (number, rule) in table.rules.iter().enumerate() {
        text += &format!("# rule {number}: {}\n", rule_text(rule));
    }
    let records: Vec<String> = table.records.iter().map(record_text).collect();
    let gotos: Vec<String> = table.gotos.iter().map(|g| format!("({},{}) {}", g.state, g.nonterm, g.target)).collect();
    text + &format!("# actions {}\n# gotos {}\n", records.join("; "), gotos.join("; "))
}

fn rule_text(rule: &Rule) -> String {
    let kind = match rule.kind {
        0 => "Zero".to_string(),
        1 => format!("Pick {}", rule.pick),
        2 => format!("Join {} times {}", rule.pick, rule.low),
        _ => format!("Check {} in {}..{}", rule.pick, rule.low, rule.high),
    };
    format!("N{} from {} items, {kind}, mark {}", rule.left, rule.len, rule.mark)
}

fn record_text(record: &Record) -> String {
    let shift = record.shift.map(|target| format!(" shift {target}")).unwrap_or_default();
    let rules: Vec<String> = record.rules.iter().map(|r| r.to_string()).collect();
    let rules = if rules.is_empty() { String::new() } else { format!(" rules {}", rules.join(",")) };
    format!("({},{}){shift}{rules}", record.state, record.class)
}
