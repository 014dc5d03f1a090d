//! `original`: answers a replay script as RustyLR's `Context` does. Arguments: `dense` uses RustyLR's dense table layout,
//! else it is the sparse one; `check` lets the context check its nodes after each term.

mod actions;
mod cap;
mod driven;
mod guard;
mod symbols;
mod tables;

use base::FIRST_TERM;
use base::script::{Command, line_of, word};
use base::speaker::{Speaker, speak};
use base::table::Table;
use driven::Reader;
use guard::guarded;
use std::process::ExitCode;

#[derive(Default)]
struct Replay {
    dense: bool,
    check: bool,
    table: Option<Table>,
    reader: Option<Reader>,
    /// The context panicked or has too many readings: it is not asked any more.
    dead: bool,
}

impl Replay {
    fn forget(&mut self) {
        *self = Replay { dense: self.dense, check: self.check, ..Replay::default() };
    }

    fn load(&mut self, file: &[u8], out: &mut String) {
        self.forget();
        self.table = Table::decode(file);
        out.push_str(if self.table.is_some() { "table 0\n" } else { "table 2\n" });
    }

    fn start(&mut self, out: &mut String) {
        let Some(table) = &self.table else {
            out.push_str("start 2\n");
            return;
        };
        actions::load(table.clone(), self.dense);
        let reader = Reader::start(table.error_used);
        out.push_str("start 0\n");
        reader.put_state(out);
        self.reader = Some(reader);
        self.dead = false;
    }

    /// Whether the arguments are such that the original's types can say them; else the answer is 5, ours.
    fn sayable(&self, command: &Command) -> bool {
        let classes = self.table.as_ref().map_or(0, |t| t.classes as u32);
        let is_term = |class: u32| (FIRST_TERM as u32..classes).contains(&class);
        match command {
            Command::Term(term) => is_term(term.class) && term.start <= term.end,
            Command::Takes(class) => is_term(*class),
            _ => true,
        }
    }

    fn ask(&mut self, command: &Command, out: &mut String) {
        let sayable = self.sayable(command);
        let Some(reader) = &mut self.reader else { return line(out, word(command), "none") };
        if self.dead {
            return line(out, word(command), "dead");
        }
        if !sayable && !reader.is_consumed() {
            return refuse_argument(command, reader, out);
        }
        let mut answer = String::new();
        let check = self.check;
        match guarded(|| run(reader, command, check, &mut answer)) {
            Ok(go_on) => {
                out.push_str(&answer);
                self.dead = !go_on;
            }
            Err(ending) => {
                line(out, word(command), &ending);
                self.dead = matches!(command, Command::Term(_) | Command::End);
            }
        }
    }
}

/// Says whether the context can be asked on.
fn run(reader: &mut Reader, command: &Command, check: bool, out: &mut String) -> bool {
    match command {
        Command::Term(term) => {
            reader.feed(*term, out);
            if check && !reader.is_consumed() {
                reader.check();
            }
            return reader.put_state(out);
        }
        Command::End => reader.end(out),
        Command::Stack(number) => reader.put_stack(*number as usize, out),
        question => reader.ask(question, out),
    }
    true
}

fn refuse_argument(command: &Command, reader: &Reader, out: &mut String) {
    if let Command::Term(_) = command {
        line(out, "term", "5 0 0");
        reader.put_state(out);
    } else {
        line(out, &line_of(command), "no 5");
    }
}

fn line(out: &mut String, first: &str, rest: &str) {
    out.push_str(first);
    out.push(' ');
    out.push_str(rest);
    out.push('\n');
}

impl Speaker for Replay {
    fn answer(&mut self, command: &Command, out: &mut String) {
        match command {
            Command::Case(_) => {
                self.forget();
                out.push_str(&line_of(command));
                out.push('\n');
            }
            Command::Table(file) => self.load(file, out),
            Command::Start => self.start(out),
            _ => self.ask(command, out),
        }
    }
}

fn main() -> ExitCode {
    let given = |word: &str| std::env::args().skip(1).any(|argument| argument == word);
    let (dense, check) = (given("dense"), given("check"));
    guard::remember_panics();
    // A stack far above the cap of `cap.rs`, so that the cap is met first.
    let thread = std::thread::Builder::new().stack_size(64 << 20);
    let work = move || speak(&mut Replay { dense, check, ..Replay::default() });
    match thread.spawn(work).expect("a thread").join() {
        Ok(Ok(())) => ExitCode::SUCCESS,
        Ok(Err(message)) => {
            eprintln!("{message}");
            ExitCode::FAILURE
        }
        Err(_) => ExitCode::FAILURE,
    }
}
