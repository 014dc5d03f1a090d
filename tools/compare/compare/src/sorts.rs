//! Random grammars of several sorts.

use crate::chance::Chance;
use crate::grammar::{Grammar, Production, Symbol};
use Symbol::{N, T};

/// A sort's name, and how its grammars are made.
type Sort = (&'static str, fn(&mut Chance) -> Grammar);

pub const SORTS: [Sort; 10] = [
    ("random", random),
    ("random without empty rules", without_empty),
    ("expressions, ambiguous", expressions),
    ("lists of words read several ways", several_ways),
    ("dates in several orders", dates),
    ("nested brackets, right recursive", nested),
    ("empty in front or between", empty_inside),
    ("empty at the end", empty_tail),
    ("cyclic", cyclic),
    ("hidden left recursive", hidden_left),
];

/// The error token is put into this part of the grammars of each sort.
const WITH_ERROR: usize = 50;

/// A grammar of the sort, with or without the error token; `None` if it is not tidy.
pub fn grammar_of(sort: usize, chance: &mut Chance) -> Option<Grammar> {
    let mut grammar = SORTS[sort].1(chance);
    if chance.percent(WITH_ERROR) {
        add_error_rules(&mut grammar, chance);
    }
    drop_twins(&mut grammar);
    (grammar.is_tidy() && grammar.rules.len() <= 40).then_some(grammar)
}

fn rule(left: u16, right: &[Symbol]) -> Production {
    Production { left, right: right.to_vec() }
}

fn drop_twins(grammar: &mut Grammar) {
    let mut kept: Vec<Production> = Vec::new();
    for rule in std::mem::take(&mut grammar.rules) {
        if !kept.contains(&rule) {
            kept.push(rule);
        }
    }
    grammar.rules = kept;
}

/// One or two rules with the error token: alone, before a term, behind a nonterminal.
fn add_error_rules(grammar: &mut Grammar, chance: &mut Chance) {
    for _ in 0..chance.within(1, 2) {
        let left = chance.below(grammar.nonterms as usize) as u16;
        let term = T(chance.within(3, grammar.classes as usize - 1) as u16);
        let nonterm = N(chance.below(grammar.nonterms as usize) as u16);
        let error = T(base::ERROR);
        let right = match chance.below(6) {
            0 | 1 => vec![error],
            2 => vec![error, term],
            3 => vec![nonterm, error],
            4 => vec![nonterm, error, term],
            _ => vec![term, error, term],
        };
        let at = chance.below(grammar.rules.len() + 1);
        grammar.rules.insert(at, Production { left, right });
    }
}

fn random_rules(chance: &mut Chance, shortest: usize) -> Grammar {
    let (nonterms, terms) = (chance.within(1, 4), chance.within(1, 4));
    let mut rules = Vec::new();
    for left in 0..nonterms {
        for _ in 0..chance.within(1, 3) {
            let len = *chance.pick(&[0, 1, 1, 2, 2, 3, 4]);
            let right = (0..len.max(shortest)).map(|_| random_symbol(chance, nonterms, terms)).collect();
            rules.push(Production { left: left as u16, right });
        }
    }
    Grammar { classes: terms as u16 + 3, nonterms: nonterms as u16, rules }
}

fn random_symbol(chance: &mut Chance, nonterms: usize, terms: usize) -> Symbol {
    match chance.percent(50) {
        true => T(3 + chance.below(terms) as u16),
        false => N(chance.below(nonterms) as u16),
    }
}

fn random(chance: &mut Chance) -> Grammar {
    random_rules(chance, 0)
}

fn without_empty(chance: &mut Chance) -> Grammar {
    random_rules(chance, 1)
}

/// E from E op E, (E), words; some with a list of statements around.
fn expressions(chance: &mut Chance) -> Grammar {
    let (list, e) = if chance.percent(50) { (true, 1) } else { (false, 0) };
    let mut rules = vec![rule(e, &[T(3)])];
    for op in 0..chance.within(1, 2) {
        rules.push(rule(e, &[N(e), T(4 + op as u16), N(e)]));
    }
    if chance.percent(40) {
        rules.push(rule(e, &[T(4), N(e)]));
    }
    if chance.percent(30) {
        rules.push(rule(e, &[N(e), N(e)]));
    }
    if list {
        rules.push(rule(0, &[N(1), T(6)]));
        rules.push(rule(0, &[N(0), N(1), T(6)]));
    }
    Grammar { classes: 7, nonterms: e + 1, rules }
}

/// A list of words; each word is one of several things, and separators tell some of them apart.
fn several_ways(chance: &mut Chance) -> Grammar {
    let ways = chance.within(2, 4) as u16;
    let mut rules = vec![rule(0, &[N(1)])];
    rules.push(match chance.percent(60) {
        true => rule(0, &[N(0), T(5), N(1)]),
        false => rule(0, &[N(1), T(5), N(0)]),
    });
    for way in 0..ways {
        rules.push(rule(2 + way, &[T(3)]));
        let tail: &[Symbol] = if chance.percent(60) { &[] } else { &[T(4)] };
        rules.push(rule(1, &[&[N(2 + way)], tail].concat()));
    }
    if chance.percent(30) {
        rules.push(rule(2, &[T(4)]));
    }
    Grammar { classes: 6, nonterms: 2 + ways, rules }
}

/// Lines of three words, separated, in two or three orders of day, month and year.
fn dates(chance: &mut Chance) -> Grammar {
    let orders = [[2, 3, 4], [3, 2, 4], [4, 3, 2]];
    let mut rules = vec![rule(0, &[N(1), T(5)]), rule(0, &[N(0), N(1), T(5)])];
    for order in orders.iter().take(chance.within(2, 3)) {
        let [a, b, c] = order.map(N);
        rules.push(rule(1, &if chance.percent(70) { vec![a, T(4), b, T(4), c] } else { vec![a, b, c] }));
    }
    rules.extend((2..5).map(|n| rule(n, &[T(3)])));
    if chance.percent(25) {
        rules.push(rule(2, &[T(6), T(3)]));
    }
    Grammar { classes: 7, nonterms: 5, rules }
}

/// Brackets around lists; words in them that are read one or two ways; lists that lean to either side.
fn nested(chance: &mut Chance) -> Grammar {
    let mut rules = vec![rule(0, &[N(1)])];
    rules.push(rule(0, if chance.percent(60) { &[N(1), N(0)] } else { &[N(0), N(1)] }));
    rules.push(rule(1, &[T(3), N(0), T(4)]));
    rules.push(rule(1, &[T(5)]));
    if chance.percent(60) {
        rules.extend([rule(2, &[T(5)]), rule(1, &[N(2)])]);
    } else {
        rules.extend([rule(2, &[T(5), T(6)]), rule(1, &[N(2), T(6)])]);
    }
    if chance.percent(50) {
        rules.push(rule(1, &[T(3), T(base::ERROR), T(4)]));
    }
    if chance.percent(30) {
        rules.push(rule(1, &[T(3), T(4)]));
    }
    Grammar { classes: 7, nonterms: 3, rules }
}

/// Lists whose elements have parts that may be missing, but never at their end.
fn empty_inside(chance: &mut Chance) -> Grammar {
    let mut rules = vec![rule(0, &[N(1)]), rule(0, &[N(0), N(1)])];
    rules.push(match chance.below(3) {
        0 => rule(1, &[N(2), T(3)]),
        1 => rule(1, &[T(3), N(2), T(4)]),
        _ => rule(1, &[N(2), T(3), N(3), T(4)]),
    });
    rules.extend([rule(2, &[]), rule(2, &[T(5)]), rule(3, &[]), rule(3, &[T(6)])]);
    if chance.percent(60) {
        rules.push(rule(1, &[N(3), T(3), T(4)]));
    } else {
        rules.push(rule(1, &[N(3), T(4)]));
    }
    if chance.percent(40) {
        rules.push(rule(1, &[T(3)]));
    }
    Grammar { classes: 7, nonterms: 4, rules }
}

/// Elements whose last part may be missing.
fn empty_tail(chance: &mut Chance) -> Grammar {
    let mut rules = vec![rule(0, &[N(1)]), rule(0, &[N(0), N(1)]), rule(1, &[T(3), N(2)])];
    rules.extend([rule(2, &[]), rule(2, &[T(4)])]);
    if chance.percent(60) {
        rules.push(rule(1, &[T(3), T(4)]));
    }
    if chance.percent(40) {
        rules.push(rule(2, &[T(4), N(2)]));
    }
    if chance.percent(40) {
        rules.push(rule(1, &[T(3)]));
    }
    Grammar { classes: 5, nonterms: 3, rules }
}

/// A random grammar in which a nonterminal can become itself.
fn cyclic(chance: &mut Chance) -> Grammar {
    let mut grammar = random_rules(chance, 1);
    let n = grammar.nonterms as usize;
    let (a, b) = (chance.below(n) as u16, chance.below(n) as u16);
    grammar.rules.push(rule(a, &[N(b)]));
    grammar.rules.push(rule(b, &[N(a)]));
    grammar
}

/// A random grammar with a nonterminal that begins with something that may be missing and then with itself.
fn hidden_left(chance: &mut Chance) -> Grammar {
    let mut grammar = random_rules(chance, 1);
    let maybe = grammar.nonterms;
    grammar.nonterms += 1;
    let a = chance.below(maybe as usize) as u16;
    let term = T(chance.within(3, grammar.classes as usize - 1) as u16);
    grammar.rules.push(rule(maybe, &[]));
    if chance.percent(60) {
        grammar.rules.push(rule(maybe, &[term]));
    }
    grammar.rules.push(rule(a, &[N(maybe), N(a), term]));
    grammar
}
