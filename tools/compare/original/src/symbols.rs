//! Terms, classes and nonterminals as the original's traits want them.

use original::parser::nonterminal::{NonTerminal, NonTerminalType};
use original::parser::terminalclass::TerminalClass;

#[derive(Clone, Copy, PartialEq, Eq, PartialOrd, Ord, Debug)]
pub struct Class(pub u16);

#[derive(Clone, Copy, Debug)]
pub struct Fed {
    pub class: Class,
    pub value: u32,
}

#[derive(Clone, Copy, PartialEq, Eq, PartialOrd, Ord, Debug)]
pub struct NonTerm(pub u16);

impl TerminalClass for Class {
    type Term = Fed;
    const ERROR: Self = Class(base::ERROR);
    const EOF: Self = Class(base::END);

    fn as_str(&self) -> &'static str {
        "class"
    }

    fn to_usize(&self) -> usize {
        self.0 as usize
    }

    fn from_term(term: &Fed) -> Self {
        term.class
    }

    fn from_virtual_start(_: u32) -> Self {
        Class(base::START)
    }
}

impl NonTerminal for NonTerm {
    fn nonterm_type(&self) -> Option<NonTerminalType> {
        None
    }

    fn as_str(&self) -> &'static str {
        "nonterminal"
    }

    fn to_usize(&self) -> usize {
        self.0 as usize
    }
}
