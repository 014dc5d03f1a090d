//! A sample for the gate: cases inside the conditions, with the original's own answers.

use crate::cases::Case;
use crate::programs::Outcome;
use std::path::Path;
use std::{fs, io};

pub struct Sample {
    wanted: usize,
    offered: usize,
    taken: usize,
    script: String,
    expected: String,
}

/// Longer scripts are left out, so that the gate stays short.
const LONGEST_SCRIPT: usize = 1200;
/// Every so many of the cases are taken, so that many grammars are among them.
const EVERY: usize = 3;

impl Sample {
    pub fn new(wanted: usize) -> Sample {
        Sample { wanted, offered: 0, taken: 0, script: String::new(), expected: String::new() }
    }

    pub fn offer(&mut self, case: &Case, answers: &Outcome) {
        let Outcome::Blocks(blocks) = answers else { return };
        let script = case.script();
        if self.taken == self.wanted || script.len() > LONGEST_SCRIPT {
            return;
        }
        self.offered += 1;
        if self.offered.is_multiple_of(EVERY) {
            self.taken += 1;
            self.script += &script;
            self.expected += &blocks.concat();
        }
    }

    pub fn write(&self, folder: &Path) -> io::Result<()> {
        fs::create_dir_all(folder)?;
        fs::write(folder.join("sample.script"), &self.script)?;
        fs::write(folder.join("sample.expected"), &self.expected)
    }
}
