//! Programs that speak the replay format, run on batches of cases over pipes.

use std::io::{Read, Write};
use std::process::{Child, Command, Stdio};
use std::sync::mpsc::channel;
use std::thread;
use std::time::Duration;

/// A batch that takes longer is stopped.
const PATIENCE: Duration = Duration::from_secs(180);

pub struct Program {
    pub name: String,
    command: Vec<String>,
}

/// The blocks of lines that answer the commands of one case, or that the process ended within it.
#[derive(Clone)]
pub enum Outcome {
    Blocks(Vec<String>),
    Died,
}

impl Program {
    /// `command` is a program and its arguments, separated by spaces.
    pub fn new(name: &str, command: &str) -> Program {
        let command = command.split_ascii_whitespace().map(str::to_string).collect();
        Program { name: name.to_string(), command }
    }

    /// Answers to all cases. A case in which the process dies is marked, and a new process goes on behind it.
    pub fn run(&self, scripts: &[String], lengths: &[usize]) -> Result<Vec<Outcome>, String> {
        let mut outcomes = Vec::new();
        while outcomes.len() < scripts.len() {
            let from = outcomes.len();
            let (text, ended_well) = self.run_once(&scripts[from..].concat())?;
            let mut cases = split(&text);
            if !ended_well {
                let whole = |(blocks, length): (&Vec<String>, &usize)| blocks.len() == *length;
                let good = cases.iter().zip(&lengths[from..]).take_while(|&(b, l)| whole((b, l))).count();
                cases.truncate(good);
            }
            let answered = cases.len();
            outcomes.extend(cases.into_iter().map(Outcome::Blocks));
            if ended_well && outcomes.len() != scripts.len() {
                return Err(format!("{} answered {answered} of {} cases", self.name, scripts.len() - from));
            }
            if !ended_well {
                outcomes.push(Outcome::Died);
            }
        }
        outcomes.truncate(scripts.len());
        Ok(outcomes)
    }

    /// The output of one process, and whether it ended by itself and with success.
    fn run_once(&self, script: &str) -> Result<(String, bool), String> {
        let mut child = Command::new(&self.command[0])
            .args(&self.command[1..])
            .stdin(Stdio::piped())
            .stdout(Stdio::piped())
            .stderr(Stdio::null())
            .spawn()
            .map_err(|e| format!("{}: {e}", self.command[0]))?;
        write_in_background(&mut child, script.to_string());
        let text = read_patiently(&mut child);
        let ended_well = child.wait().is_ok_and(|status| status.success());
        Ok((text, ended_well))
    }
}

fn write_in_background(child: &mut Child, script: String) {
    let mut input = child.stdin.take().expect("a pipe");
    // A program that dies closes its end; its case is marked anyway.
    thread::spawn(move || drop(input.write_all(script.as_bytes())));
}

/// All output; the child is stopped if it takes too long.
fn read_patiently(child: &mut Child) -> String {
    let mut output = child.stdout.take().expect("a pipe");
    let (done, wait) = channel();
    let reader = thread::spawn(move || {
        let mut bytes = Vec::new();
        let _ = output.read_to_end(&mut bytes);
        let _ = done.send(());
        String::from_utf8_lossy(&bytes).into_owned()
    });
    if wait.recv_timeout(PATIENCE).is_err() {
        let _ = child.kill();
    }
    reader.join().unwrap_or_default()
}

/// The cases of an output, each as its blocks: a line and the indented lines under it.
fn split(text: &str) -> Vec<Vec<String>> {
    let mut cases: Vec<Vec<String>> = Vec::new();
    for line in text.split_inclusive('\n') {
        if line.starts_with("case ") {
            cases.push(vec![line.to_string()]);
        } else if let Some(blocks) = cases.last_mut() {
            match line.strip_prefix(' ') {
                Some(_) => blocks.last_mut().expect("a case has a line").push_str(line),
                None => blocks.push(line.to_string()),
            }
        }
    }
    cases
}
