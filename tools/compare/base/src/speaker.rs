//! The loop of a program that speaks the replay format.

use crate::script::{Command, parse};
use std::io::{BufRead, BufWriter, Write, stdin, stdout};

/// Something that answers commands with lines.
pub trait Speaker {
    fn answer(&mut self, command: &Command, out: &mut String);
}

/// Answers the script on standard input until it ends; a line that is no command ends the program.
pub fn speak(speaker: &mut dyn Speaker) -> Result<(), String> {
    let mut writer = BufWriter::new(stdout().lock());
    let mut out = String::new();
    for line in stdin().lock().lines() {
        let line = line.map_err(|e| e.to_string())?;
        if let Some(command) = parse(&line)? {
            // Each case goes out as a whole, so that a process that dies leaves the cases before it.
            if matches!(command, Command::Case(_)) {
                writer.write_all(out.as_bytes()).and_then(|_| writer.flush()).map_err(|e| e.to_string())?;
                out.clear();
            }
            speaker.answer(&command, &mut out);
        }
    }
    writer.write_all(out.as_bytes()).and_then(|_| writer.flush()).map_err(|e| e.to_string())
}
