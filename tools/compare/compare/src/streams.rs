//! Streams of terms and questions for a table.

use crate::cases::Case;
use crate::chance::Chance;
use crate::grammar::Grammar;
use crate::sentences::sentence;
use base::script::{Command, Term};
use base::table::Table;
use base::{ERROR, FIRST_TERM};
use rules::Machine;

pub const STREAMS: [&str; 4] = ["fits", "nearly fits", "random", "follows the machine"];
/// The streams from here on need no sentences of a grammar.
pub const FIRST_WITHOUT_GRAMMAR: usize = 2;

/// What a stream is made for.
pub struct Source<'a> {
    pub grammar: &'a Grammar,
    pub heights: &'a [u32],
    pub table: &'a Table,
}

impl Source<'_> {
    pub fn case(&self, name: String, stream: usize, chance: &mut Chance) -> Case {
        let classes = self.classes(stream, chance);
        let mut maker = Maker::new(self.table, chance);
        for class in classes {
            let class = class.unwrap_or_else(|| maker.likely_class());
            if !maker.term(class) {
                break;
            }
            maker.questions(15);
        }
        maker.questions(60);
        Case { name, table: self.table.clone(), commands: maker.commands }
    }

    /// The classes to feed; `None`: one that the machine is likely to take.
    fn classes(&self, stream: usize, chance: &mut Chance) -> Vec<Option<u16>> {
        let length = match chance.below(100) {
            0..70 => chance.within(3, 12),
            70..95 => chance.within(10, 40),
            _ => chance.within(60, 90),
        };
        match STREAMS[stream] {
            "fits" => self.sentence(length, chance).into_iter().map(Some).collect(),
            "nearly fits" => {
                let mut classes = self.sentence(length, chance);
                (0..chance.within(1, 3)).for_each(|_| self.spoil(&mut classes, chance));
                classes.into_iter().map(Some).collect()
            }
            "random" => (0..length).map(|_| Some(self.any(chance))).collect(),
            _ => vec![None; length],
        }
    }

    fn any(&self, chance: &mut Chance) -> u16 {
        chance.within(FIRST_TERM as usize, self.grammar.classes as usize - 1) as u16
    }

    /// A sentence, with any one or two terms in the place of each error token.
    fn sentence(&self, length: usize, chance: &mut Chance) -> Vec<u16> {
        let mut classes = Vec::new();
        for class in sentence(self.grammar, self.heights, length, chance) {
            if class == ERROR {
                (0..chance.within(1, 2)).for_each(|_| classes.push(self.any(chance)));
            } else {
                classes.push(class);
            }
        }
        classes.truncate(100);
        classes
    }

    /// One term more, less, or another.
    fn spoil(&self, classes: &mut Vec<u16>, chance: &mut Chance) {
        let at = chance.below(classes.len() + 1);
        match chance.below(3) {
            0 => classes.insert(at, self.any(chance)),
            1 if at < classes.len() => drop(classes.remove(at)),
            _ if at < classes.len() => classes[at] = self.any(chance),
            _ => {}
        }
    }
}

/// Makes commands while the rules run, so that a case ends where a limit is met or the state is consumed.
struct Maker<'a> {
    machine: Machine,
    chance: &'a mut Chance,
    commands: Vec<Command>,
    place: u32,
    great_values: bool,
}

impl<'a> Maker<'a> {
    fn new(table: &Table, chance: &'a mut Chance) -> Self {
        let great_values = chance.percent(10);
        Maker { machine: Machine::start(table.clone()), chance, commands: Vec::new(), place: 0, great_values }
    }

    /// Feeds a term; says whether to go on.
    fn term(&mut self, class: u16) -> bool {
        let was_consumed = self.machine.is_consumed();
        let term = self.random_term(class);
        self.commands.push(Command::Term(term));
        let answer = self.machine.feed(term).answer;
        !was_consumed && !(6..=11).contains(&answer)
    }

    fn random_term(&mut self, class: u16) -> Term {
        let value = if self.great_values { self.chance.bits() as u32 } else { self.chance.below(41) as u32 };
        let start = if self.chance.percent(3) { self.chance.bits() as u32 >> 1 } else { self.place };
        let end = start + self.chance.below(4) as u32;
        self.place = self.place.max(end.min(1 << 20)) + self.chance.below(2) as u32;
        Term { class: class as u32, value, start, end }
    }

    /// Mostly a class that some reading takes, if there is one.
    fn likely_class(&mut self) -> u16 {
        let first = FIRST_TERM as usize;
        let count = self.machine.classes() as usize - first;
        let from = self.chance.below(count);
        let order = (0..count).map(|n| (first + (from + n) % count) as u16);
        let any = (first + from) as u16;
        if self.chance.percent(4) {
            return any;
        }
        order.into_iter().find(|&class| self.machine.takes(class as u32).0).unwrap_or(any)
    }

    fn questions(&mut self, percent: usize) {
        let classes = self.machine.classes() as usize;
        if self.chance.percent(percent) {
            self.commands.push(Command::Takes(self.chance.within(FIRST_TERM as usize, classes - 1) as u32));
        }
        if self.chance.percent(percent) {
            self.commands.push(Command::CanEnd);
        }
        if self.chance.percent(percent) {
            self.commands.push(Command::CanRecover);
        }
        if self.chance.percent(percent / 3) {
            self.commands.push(Command::Stack(self.chance.below(3) as u32));
        }
    }
}
