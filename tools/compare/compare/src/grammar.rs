//! Grammars, and what can be said about them.

/// A terminal class or a nonterminal.
#[derive(Clone, Copy, PartialEq, Eq, PartialOrd, Ord, Debug)]
pub enum Symbol {
    T(u16),
    N(u16),
}

#[derive(Clone, PartialEq, Eq, Debug)]
pub struct Production {
    pub left: u16,
    pub right: Vec<Symbol>,
}

/// Nonterminal 0 is the start. Classes from 3 on are terms; 1 is the error token.
#[derive(Clone, Debug)]
pub struct Grammar {
    pub classes: u16,
    pub nonterms: u16,
    pub rules: Vec<Production>,
}

/// A truth for each nonterminal, grown until nothing is added.
fn grow(grammar: &Grammar, adds: impl Fn(&Production, &[bool]) -> bool) -> Vec<bool> {
    let mut set = vec![false; grammar.nonterms as usize];
    loop {
        let before = set.clone();
        for rule in &grammar.rules {
            set[rule.left as usize] |= adds(rule, &set);
        }
        if set == before {
            return set;
        }
    }
}

fn all_in(symbols: &[Symbol], set: &[bool], terminals: bool) -> bool {
    symbols.iter().all(|s| match s {
        Symbol::T(_) => terminals,
        Symbol::N(n) => set[*n as usize],
    })
}

impl Grammar {
    pub fn nullable(&self) -> Vec<bool> {
        grow(self, |rule, set| all_in(&rule.right, set, false))
    }

    /// Whether each nonterminal derives some word and is reached from the start.
    pub fn is_tidy(&self) -> bool {
        let productive = grow(self, |rule, set| all_in(&rule.right, set, true));
        productive.iter().all(|&p| p) && self.reached().iter().all(|&r| r)
    }

    fn reached(&self) -> Vec<bool> {
        let mut reached = vec![false; self.nonterms as usize];
        let mut open = vec![0];
        while let Some(n) = open.pop() {
            if std::mem::replace(&mut reached[n as usize], true) {
                continue;
            }
            for symbol in self.rules.iter().filter(|r| r.left == n).flat_map(|r| &r.right) {
                if let Symbol::N(m) = symbol {
                    open.push(*m);
                }
            }
        }
        reached
    }

    /// Whether some nonterminal derives itself alone.
    pub fn is_cyclic(&self) -> bool {
        let nullable = self.nullable();
        self.has_loop(|rule, at| {
            let others = |part: &[Symbol]| all_in(part, &nullable, false);
            others(&rule.right[..at]) && others(&rule.right[at + 1..])
        })
    }

    /// Whether some nonterminal derives itself behind symbols that can all be empty, at least one of them.
    pub fn is_hidden_left_recursive(&self) -> bool {
        let nullable = self.nullable();
        let before_empty = |rule: &Production, at: usize| all_in(&rule.right[..at], &nullable, false);
        let left = self.closed(&before_empty);
        self.rules.iter().any(|rule| {
            (1..rule.right.len()).any(|at| match rule.right[at] {
                Symbol::N(n) => before_empty(rule, at) && (n == rule.left || left[n as usize][rule.left as usize]),
                Symbol::T(_) => false,
            })
        })
    }

    /// Whether a rule has a nonterminal that can be empty as its last symbol.
    pub fn has_empty_tail(&self) -> bool {
        let nullable = self.nullable();
        self.rules.iter().any(|r| r.right.last().is_some_and(|s| all_in(&[*s], &nullable, false)))
    }

    pub fn uses_error(&self) -> bool {
        self.rules.iter().any(|r| r.right.contains(&Symbol::T(base::ERROR)))
    }

    fn has_loop(&self, step: impl Fn(&Production, usize) -> bool) -> bool {
        self.closed(&step).iter().enumerate().any(|(n, to)| to[n])
    }

    /// Which nonterminal leads to which, over one or more steps that `step` allows.
    fn closed(&self, step: &impl Fn(&Production, usize) -> bool) -> Vec<Vec<bool>> {
        let n = self.nonterms as usize;
        let mut leads = vec![vec![false; n]; n];
        for rule in &self.rules {
            for (at, symbol) in rule.right.iter().enumerate() {
                if let (Symbol::N(m), true) = (symbol, step(rule, at)) {
                    leads[rule.left as usize][*m as usize] = true;
                }
            }
        }
        for middle in 0..n {
            for from in 0..n {
                for to in 0..n {
                    leads[from][to] |= leads[from][middle] && leads[middle][to];
                }
            }
        }
        leads
    }
}
