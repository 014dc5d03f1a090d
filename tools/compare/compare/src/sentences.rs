//! Words of a grammar: sampled sentences.

use crate::chance::Chance;
use crate::grammar::{Grammar, Symbol};

/// For each rule the height of its lowest tree.
pub fn rule_heights(grammar: &Grammar) -> Vec<u32> {
    let mut nonterms = vec![u32::MAX; grammar.nonterms as usize];
    let mut rules = vec![u32::MAX; grammar.rules.len()];
    for _ in 0..=grammar.nonterms {
        for (number, rule) in grammar.rules.iter().enumerate() {
            let highest = rule.right.iter().map(|s| match s {
                Symbol::T(_) => 0,
                Symbol::N(n) => nonterms[*n as usize],
            });
            rules[number] = highest.max().unwrap_or(0).saturating_add(1);
            nonterms[rule.left as usize] = nonterms[rule.left as usize].min(rules[number]);
        }
    }
    rules
}

/// The classes of a sentence (1 for the error token), of about `length` terms or some more.
pub fn sentence(grammar: &Grammar, heights: &[u32], length: usize, chance: &mut Chance) -> Vec<u16> {
    let mut classes = Vec::new();
    let mut open = vec![Symbol::N(0)];
    let mut steps = 0;
    while let Some(symbol) = open.pop() {
        match symbol {
            Symbol::T(class) => classes.push(class),
            Symbol::N(n) => {
                steps += 1;
                let low = classes.len() + open.len() >= length || steps > 20 * length;
                let rule = choose(grammar, heights, n, low, chance);
                open.extend(grammar.rules[rule].right.iter().rev());
            }
        }
    }
    classes
}

fn choose(grammar: &Grammar, heights: &[u32], left: u16, low: bool, chance: &mut Chance) -> usize {
    let rules: Vec<usize> = (0..grammar.rules.len()).filter(|&r| grammar.rules[r].left == left).collect();
    if low {
        return *rules.iter().min_by_key(|&&r| heights[r]).expect("a tidy grammar");
    }
    // Twice, and the longer one is taken at times: so that lists get some length.
    let (a, b) = (*chance.pick(&rules), *chance.pick(&rules));
    match grammar.rules[b].right.len() > grammar.rules[a].right.len() && chance.percent(50) {
        true => b,
        false => a,
    }
}
