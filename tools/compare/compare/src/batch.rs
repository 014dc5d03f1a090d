//! Batches of random cases: grammars, their tables, and streams for them.

use crate::arbitrary::arbitrary_table;
use crate::cases::Case;
use crate::chance::Chance;
use crate::coverage::Coverage;
use crate::grammar::Grammar;
use crate::sentences::rule_heights;
use crate::sorts::{SORTS, grammar_of};
use crate::streams::{FIRST_WITHOUT_GRAMMAR, STREAMS, Source};
use crate::tables::{Actions, table_of};

/// Streams for each table.
const CASES_OF_TABLE: usize = 6;

/// The cases of one seed: some for each of `grammars` tables. With `arbitrary`, the tables are not those of grammars.
pub fn batch(seed: u64, grammars: usize, arbitrary: bool, coverage: &mut Coverage) -> Vec<Case> {
    let mut chance = Chance::new(seed);
    let mut cases = Vec::new();
    if arbitrary {
        let of_table = |number| cases_of_arbitrary(seed, number, &mut chance, coverage);
        return (0..grammars).flat_map(of_table).collect();
    }
    for number in 0..grammars {
        let sort = number % SORTS.len();
        let lalr = chance.percent(50);
        cases.extend(cases_of_grammar(seed, number, sort, lalr, &mut chance, coverage));
    }
    cases
}

/// Draws grammars of the sort until one fits the limits.
fn cases_of_grammar(
    seed: u64,
    number: usize,
    sort: usize,
    lalr: bool,
    chance: &mut Chance,
    coverage: &mut Coverage,
) -> Vec<Case> {
    loop {
        let Some(grammar) = grammar_of(sort, chance) else { continue };
        let actions = if chance.percent(30) { Actions::Refusing } else { Actions::Taking };
        let Some(table) = table_of(&grammar, lalr, actions, chance) else {
            coverage.hit("grammars dropped: more than 400 states or more than 4 rules in a record");
            continue;
        };
        coverage.grammar(SORTS[sort].0, lalr, &grammar, &table);
        let heights = rule_heights(&grammar);
        let source = Source { grammar: &grammar, heights: &heights, table: &table };
        return (0..CASES_OF_TABLE)
            .map(|n| {
                let stream = chance.below(STREAMS.len());
                coverage.hit(format!("streams: {}", STREAMS[stream]));
                source.case(format!("{seed}-{number}-{n}"), stream, chance)
            })
            .collect();
    }
}

/// Random streams, and streams that follow the machine, for a table that no grammar made.
fn cases_of_arbitrary(seed: u64, number: usize, chance: &mut Chance, coverage: &mut Coverage) -> Vec<Case> {
    let table = arbitrary_table(chance);
    coverage.hit("arbitrary tables");
    let grammar = Grammar { classes: table.classes, nonterms: table.nonterms, rules: Vec::new() };
    let source = Source { grammar: &grammar, heights: &[], table: &table };
    (0..CASES_OF_TABLE)
        .map(|n| {
            let stream = chance.within(FIRST_WITHOUT_GRAMMAR, STREAMS.len() - 1);
            coverage.hit(format!("streams: {}", STREAMS[stream]));
            source.case(format!("{seed}-{number}-{n}"), stream, chance)
        })
        .collect()
}
