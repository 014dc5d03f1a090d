//! One context of the original, asked in the words of the replay format.

use crate::actions::{Driven, Refused, Start, Value};
use crate::cap;
use crate::symbols::{Class, Fed};
use base::NONE;
use base::answers::{ErrorRecord, put_fed, put_question};
use base::script::{Command, Term, line_of};
use original::parser::nondeterministic::{Context, Entries, ParseErrorBranch};
use std::fmt::Write;

type Original<const USED: bool> = Context<Driven<USED>, Value, Start, u16, 4>;
type BranchError = ParseErrorBranch<Refused, u32>;

/// More readings than this are not followed any further.
const MOST_READINGS: usize = 200;
/// More nodes than this in one reading: its parent links go round.
const MOST_NODES: usize = 2000;

/// A context for either use of the error class.
pub enum Reader {
    WithError(Original<true>),
    WithoutError(Original<false>),
}

macro_rules! context {
    ($self:expr, $context:ident => $call:expr) => {
        match $self {
            Reader::WithError($context) => $call,
            Reader::WithoutError($context) => $call,
        }
    };
}

impl Reader {
    pub fn start(error_used: bool) -> Reader {
        if error_used { Reader::WithError(Context::new(0)) } else { Reader::WithoutError(Context::new(0)) }
    }

    pub fn is_consumed(&self) -> bool {
        context!(self, context => context.shows_consumed())
    }

    pub fn feed(&mut self, term: Term, out: &mut String) {
        let fed = Fed { class: Class(term.class as u16), value: term.value };
        let (answer, errors) = context!(self, context => match context.feed_location(fed, term.start..term.end) {
            Ok(success) => (0, success.errors.map(|e| e.branch_errors).unwrap_or_default()),
            Err(error) if error.context_consumed => (4, error.branch_errors),
            Err(error) => (12, error.branch_errors),
        });
        let errors: Vec<ErrorRecord> = errors.iter().map(record).collect();
        put_fed(out, "term", answer, &errors, cap::lookups());
    }

    /// The end of the input: the values and marks that the original gives, in order.
    pub fn end(&mut self, out: &mut String) {
        let ended = context!(self, context => context.accept_all().map(|pairs| pairs.collect::<Vec<_>>()));
        match ended {
            Ok(pairs) => {
                put_fed(out, "end", 0, &[], cap::lookups());
                for (value, mark) in pairs {
                    let _ = writeln!(out, " p {value},{mark}");
                }
            }
            Err(error) => {
                let errors: Vec<ErrorRecord> = error.branch_errors.iter().map(record).collect();
                put_fed(out, "end", if error.context_consumed { 4 } else { 12 }, &errors, cap::lookups());
            }
        }
    }

    pub fn ask(&self, question: &Command, out: &mut String) {
        let yes = context!(self, context => match question {
            Command::Takes(class) => context.can_feed(&Fed { class: Class(*class as u16), value: 0 }),
            Command::CanEnd => context.can_accept(),
            _ => context.can_panic(),
        });
        put_question(out, &line_of(question), yes, 0);
    }

    /// The original's own check of its nodes: panics if one is lost or freed while in use.
    pub fn check(&self) {
        context!(self, context => context.debug_check());
    }

    /// The readings, a line each; says whether it makes sense to go on.
    pub fn put_state(&self, out: &mut String) -> bool {
        if self.is_consumed() {
            out.push_str(" consumed\n");
            return true;
        }
        let count = context!(self, context => context.count_readings());
        if count > MOST_READINGS {
            let _ = writeln!(out, " many {count}");
            return false;
        }
        for number in 0..count {
            let entries = self.read_out(number).expect("a reading below the count");
            let _ = write!(out, " r {}", entries.userdata);
            put_entries(out, &entries, 0..height(&entries));
            out.push('\n');
        }
        true
    }

    fn read_out(&self, number: usize) -> Option<Entries<'_, Value>> {
        context!(self, context => context.read_out(number, MOST_NODES))
    }

    pub fn put_stack(&self, number: usize, out: &mut String) {
        let found = if self.is_consumed() { Err(4) } else { self.read_out(number).ok_or(5) };
        match found {
            Ok(entries) => {
                let _ = write!(out, "stack 0 {} {}", height(&entries), entries.userdata);
                put_entries(out, &entries, (0..height(&entries)).rev());
                out.push('\n');
            }
            Err(answer) => {
                let _ = writeln!(out, "stack {answer} 0 0");
            }
        }
    }
}

fn record(error: &BranchError) -> ErrorRecord {
    match error {
        BranchError::NoAction { state, userdata } => ErrorRecord { rule: NONE, state: *state as u16, mark: *userdata },
        BranchError::ReduceAction { state, source, .. } => {
            ErrorRecord { rule: source.rule as u16, state: *state as u16, mark: source.mark }
        }
    }
}

fn height(entries: &Entries<Value>) -> usize {
    entries.states.len().max(entries.values.len()).max(entries.locations.len())
}

/// Entries in the given order; what a damaged reading lacks is a question mark.
fn put_entries(out: &mut String, entries: &Entries<Value>, order: impl Iterator<Item = usize>) {
    if entries.freed {
        out.push_str(" freed");
    }
    let text = |n: Option<String>| n.unwrap_or("?".into());
    for n in order {
        let state = text(entries.states.get(n).map(|s| s.to_string()));
        let value = text(entries.values.get(n).map(|v| v.0.to_string()));
        let span = entries.locations.get(n).map(|l| format!("{},{}", l.start, l.end));
        let _ = write!(out, " {state},{value},{}", span.unwrap_or("?,?".into()));
    }
}
