//! Compares what the original did with what the rules say, inside the conditions and outside them.

use crate::cases::Step;
use crate::kinds::kind_of;
use crate::programs::Outcome;
use rules::watch::Watch;

/// Which conditions have been broken up to a point.
#[derive(Clone, Copy, Default, PartialEq, Eq, PartialOrd, Ord)]
pub struct Broken {
    pub refusal: u8,
    pub action_refused: bool,
    pub pops_under_empty: bool,
    pub pops_beside: bool,
    pub shared_reached: bool,
}

impl Broken {
    fn and(self, watch: &Watch) -> Broken {
        Broken {
            refusal: self.refusal.max(watch.refusal),
            action_refused: self.action_refused || watch.action_refused,
            pops_under_empty: self.pops_under_empty || watch.pops_under_empty,
            pops_beside: self.pops_beside || watch.pops_beside,
            shared_reached: self.shared_reached || watch.shared_reached,
        }
    }

    pub fn none(&self) -> bool {
        *self == Broken::default()
    }

    /// Broken only in that a chain pops under an empty reduction that had nothing beside it.
    pub fn only_alone(&self) -> bool {
        *self == Broken { pops_under_empty: true, ..Broken::default() }
    }

    pub fn text(&self) -> String {
        let mut words = Vec::new();
        if self.refusal != 0 {
            words.push(format!("answer {}", self.refusal));
        }
        let flags = [
            (self.action_refused, "an action refused"),
            (self.pops_beside, "a chain pops under its empty reduction, beside another way"),
            (self.pops_under_empty && !self.pops_beside, "a chain pops under its empty reduction, alone"),
            (self.shared_reached, "recovery reaches a shared entry"),
        ];
        words.extend(flags.iter().filter(|(set, _)| *set).map(|(_, text)| text.to_string()));
        if words.is_empty() { "none".to_string() } else { words.join(", ") }
    }
}

/// The first difference of a program from the rules.
#[derive(Clone)]
pub struct Difference {
    pub at: usize,
    pub kind: String,
}

/// What has been broken at each step, that step included. A refused question breaks a condition for itself alone.
pub fn broken_at(steps: &[Step]) -> Vec<Broken> {
    let mut so_far = Broken::default();
    let mut list = Vec::new();
    for step in steps {
        let now = so_far.and(&step.watch);
        if step.is_term {
            so_far = now;
        }
        list.push(now);
    }
    list
}

/// The first difference. Refused questions are looked at only if nothing else differs.
pub fn first_difference(steps: &[Step], outcome: &Outcome) -> Option<Difference> {
    let Outcome::Blocks(blocks) = outcome else {
        return Some(Difference { at: steps.len() - 1, kind: "the process dies".to_string() });
    };
    let differs = |at: &usize| blocks.get(*at) != Some(&steps[*at].block);
    let refused_question = |at: &usize| !steps[*at].is_term && steps[*at].watch.refusal != 0;
    let plain = (0..steps.len()).filter(|at| !refused_question(at)).find(differs);
    let at = plain.or_else(|| (0..steps.len()).find(differs))?;
    let block = blocks.get(at).map_or("", |b| b);
    Some(Difference { at, kind: kind_of(&steps[at].block, block) })
}

/// How debug and release differ from the rules, and which conditions were broken by then.
#[derive(Clone, PartialEq, Eq, PartialOrd, Ord)]
pub struct Class {
    pub broken: Broken,
    pub debug: String,
    pub release: String,
}

const SAME: &str = "the same";

pub fn class_of(broken: &[Broken], debug: &Option<Difference>, release: &Option<Difference>) -> Option<(Class, usize)> {
    let at = [debug, release].into_iter().flatten().map(|d| d.at).min()?;
    let refused = broken[at].refusal != 0;
    let kind = |d: &Option<Difference>| match d {
        Some(d) if refused => beyond_limit(&d.kind).to_string(),
        Some(d) => d.kind.clone(),
        None => SAME.to_string(),
    };
    let class = Class { broken: broken[at], debug: kind(debug), release: kind(release) };
    Some((if refused { of_limit(class) } else { class }, at))
}

/// Where the rules refuse and the original has no limit, it does not matter how its readings look then.
fn beyond_limit(kind: &str) -> &str {
    if kind.starts_with("panic") || kind == "endless" || kind.starts_with("the process") { kind } else { "it goes on" }
}

/// A refusal stands for itself, unless there is a panic that may come from damage done before.
fn of_limit(class: Class) -> Class {
    let panics = class.debug.starts_with("panic") || class.release.starts_with("panic");
    let broken = Broken { refusal: class.broken.refusal, ..Broken::default() };
    if panics { class } else { Class { broken, ..class } }
}
