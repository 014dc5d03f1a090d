//! Differences found: how many of each class, and the smallest case of each.

use crate::cases::Case;
use crate::describe::describe;
use crate::judge::{Class, Difference};
use crate::shrink::{Builds, shrink};
use std::collections::BTreeMap;
use std::fmt::Write;

#[derive(Default)]
pub struct Findings {
    classes: BTreeMap<Class, (u64, Case)>,
    /// Cases in which the other program departs from the rules.
    others: Vec<String>,
}

impl Findings {
    pub fn differs(&mut self, case: &Case, class: Class) {
        let (count, smallest) = self.classes.entry(class).or_insert_with(|| (0, case.clone()));
        *count += 1;
        if case.size() < smallest.size() {
            *smallest = case.clone();
        }
    }

    pub fn other_differs(&mut self, case: &Case, difference: &Difference) {
        self.others.push(format!("{} at command {}: {}", case.name, difference.at, difference.kind));
    }

    /// Whether nothing differs that must not.
    pub fn good(&self) -> bool {
        self.others.is_empty() && self.classes.keys().all(|class| !class.broken.none())
    }

    pub fn print_others(&self) {
        for other in self.others.iter().take(20) {
            println!("THE OTHER PROGRAM DIFFERS FROM THE RULES: {other}");
        }
    }

    pub fn print_classes(&self) {
        for (class, (count, smallest)) in &self.classes {
            let place = if class.broken.none() { "INSIDE THE CONDITIONS" } else { "outside" };
            println!("{count:>10}  {place}: {}", class.broken.text());
            println!(
                "            debug: {}; release: {}; smallest: case {}",
                class.debug, class.release, smallest.name
            );
        }
    }

    /// A script with one small case of each class, made smaller step by step.
    pub fn smallest_script(&self, builds: &Builds) -> Result<String, String> {
        let mut script = String::new();
        for (number, (class, (count, smallest))) in self.classes.iter().enumerate() {
            let mut case = shrink(smallest, class, builds)?;
            let _ = writeln!(script, "# {count} cases; conditions broken: {}", class.broken.text());
            let _ =
                writeln!(script, "# debug: {}; release: {}; from case {}", class.debug, class.release, smallest.name);
            script += &describe(&case.table);
            case.name = format!("class-{}", number + 1);
            script += &case.script();
        }
        Ok(script)
    }
}
