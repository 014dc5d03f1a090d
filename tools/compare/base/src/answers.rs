//! The lines of the replay format that answer commands.

use std::fmt::Write;

#[derive(Clone, Copy, Debug, PartialEq, Eq)]
pub struct Entry {
    pub state: u16,
    pub value: u32,
    pub start: u32,
    pub end: u32,
}

#[derive(Clone, Copy, Debug, PartialEq, Eq)]
pub struct ErrorRecord {
    pub rule: u16,
    pub state: u16,
    pub mark: u32,
}

pub fn put_entry(out: &mut String, entry: &Entry) {
    let _ = write!(out, " {},{},{},{}", entry.state, entry.value, entry.start, entry.end);
}

pub fn put_reading(out: &mut String, mark: u32, from_bottom: impl Iterator<Item = Entry>) {
    let _ = write!(out, " r {mark}");
    from_bottom.for_each(|entry| put_entry(out, &entry));
    out.push('\n');
}

pub fn put_fed(out: &mut String, word: &str, answer: u8, errors: &[ErrorRecord], walked: u64) {
    let _ = writeln!(out, "{word} {answer} {} {walked}", errors.len());
    for e in errors {
        let _ = writeln!(out, " e {} {} {}", e.rule, e.state, e.mark);
    }
}

/// The answer to a question; `refusal` is 0 if there is none.
pub fn put_question(out: &mut String, question: &str, yes: bool, refusal: u8) {
    out.push_str(question);
    out.push_str(if yes { " yes" } else { " no" });
    if refusal != 0 {
        let _ = write!(out, " {refusal}");
    }
    out.push('\n');
}

/// The answer to `stack`: all zero but the answer if it is a refusal.
pub fn put_stack(out: &mut String, answer: u8, mark: u32, from_top: &[Entry]) {
    let _ = write!(out, "stack {answer} {} {mark}", from_top.len());
    from_top.iter().for_each(|entry| put_entry(out, entry));
    out.push('\n');
}
