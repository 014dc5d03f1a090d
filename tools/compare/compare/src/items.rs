//! LR(1) item sets of a grammar, canonical or merged to LALR(1).

use crate::grammar::{Grammar, Production, Symbol};
use std::collections::BTreeMap;

/// Rule number and place of the dot, with the classes that may follow as bits.
pub type Items = BTreeMap<(usize, usize), u64>;

pub struct ItemState {
    pub kernel: Items,
    pub next: BTreeMap<Symbol, usize>,
}

/// More states than this and the grammar is dropped.
const MOST_STATES: usize = 400;

pub struct Builder<'a> {
    grammar: &'a Grammar,
    /// Start class, start nonterminal, end: reads the whole input and is never reduced.
    whole: Production,
    nullable: Vec<bool>,
    first: Vec<u64>,
    lalr: bool,
    states: Vec<ItemState>,
}

/// The item sets; `None` if there are too many.
pub fn item_states(grammar: &Grammar, lalr: bool) -> Option<Vec<(Items, BTreeMap<Symbol, usize>)>> {
    let mut builder = Builder::new(grammar, lalr);
    builder.build()?;
    let states = std::mem::take(&mut builder.states);
    Some(states.into_iter().map(|state| (builder.closure(&state.kernel), state.next)).collect())
}

impl<'a> Builder<'a> {
    fn new(grammar: &'a Grammar, lalr: bool) -> Self {
        let right = vec![Symbol::T(base::START), Symbol::N(0), Symbol::T(base::END)];
        let whole = Production { left: u16::MAX, right };
        let (nullable, first) = (grammar.nullable(), vec![0; grammar.nonterms as usize]);
        let mut builder = Builder { grammar, whole, nullable, first, lalr, states: Vec::new() };
        builder.find_first();
        builder
    }

    fn find_first(&mut self) {
        loop {
            let before = self.first.clone();
            for rule in &self.grammar.rules {
                self.first[rule.left as usize] |= self.first_of(&rule.right, 0);
            }
            if self.first == before {
                return;
            }
        }
    }

    /// The classes with which `symbols` can begin; `after` if they can be empty.
    fn first_of(&self, symbols: &[Symbol], after: u64) -> u64 {
        let mut classes = 0;
        for symbol in symbols {
            match symbol {
                Symbol::T(class) => return classes | 1 << class,
                Symbol::N(n) => classes |= self.first[*n as usize],
            }
            if let Symbol::N(n) = symbol
                && !self.nullable[*n as usize]
            {
                return classes;
            }
        }
        classes | after
    }

    fn rule(&self, number: usize) -> &Production {
        self.grammar.rules.get(number).unwrap_or(&self.whole)
    }

    fn closure(&self, kernel: &Items) -> Items {
        let mut items = kernel.clone();
        let mut open: Vec<(usize, usize)> = kernel.keys().copied().collect();
        while let Some((number, dot)) = open.pop() {
            let right = &self.rule(number).right;
            let Some(Symbol::N(n)) = right.get(dot) else { continue };
            let after = self.first_of(&right[dot + 1..], items[&(number, dot)]);
            for (inner, _) in self.grammar.rules.iter().enumerate().filter(|(_, r)| r.left == *n) {
                let classes = items.get(&(inner, 0)).copied();
                if classes.is_none_or(|known| known | after != known) {
                    items.insert((inner, 0), classes.unwrap_or(0) | after);
                    open.push((inner, 0));
                }
            }
        }
        items
    }

    fn build(&mut self) -> Option<()> {
        let start = Items::from([((self.grammar.rules.len(), 0), 0)]);
        self.states.push(ItemState { kernel: start, next: BTreeMap::new() });
        let mut open = vec![0];
        while let Some(number) = open.pop() {
            for (symbol, kernel) in self.steps(number) {
                let (target, changed) = self.state_of(kernel);
                self.states[number].next.insert(symbol, target);
                if changed {
                    open.push(target);
                }
            }
            if self.states.len() > MOST_STATES {
                return None;
            }
        }
        Some(())
    }

    /// The kernels that the symbols behind the dots lead to.
    fn steps(&self, number: usize) -> BTreeMap<Symbol, Items> {
        let mut steps: BTreeMap<Symbol, Items> = BTreeMap::new();
        for ((rule, dot), classes) in self.closure(&self.states[number].kernel) {
            if let Some(symbol) = self.rule(rule).right.get(dot) {
                steps.entry(*symbol).or_default().insert((rule, dot + 1), classes);
            }
        }
        steps
    }

    /// The state of a kernel, and whether it is new or has grown.
    fn state_of(&mut self, kernel: Items) -> (usize, bool) {
        let lalr = self.lalr;
        let same = |state: &ItemState| match lalr {
            true => state.kernel.keys().eq(kernel.keys()),
            false => state.kernel == kernel,
        };
        let Some(number) = self.states.iter().position(same) else {
            self.states.push(ItemState { kernel, next: BTreeMap::new() });
            return (self.states.len() - 1, true);
        };
        let known = &mut self.states[number].kernel;
        let before = known.clone();
        for (item, classes) in kernel {
            *known.entry(item).or_default() |= classes;
        }
        (number, *known != before)
    }
}
