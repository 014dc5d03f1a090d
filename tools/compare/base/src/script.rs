//! Replay scripts: their commands, read from lines and written as lines.

#[derive(Clone, Debug, PartialEq, Eq)]
pub enum Command {
    Case(String),
    Table(Vec<u8>),
    Start,
    Term(Term),
    Takes(u32),
    CanEnd,
    CanRecover,
    Stack(u32),
    /// The end of the input (not a command of the replay format; the original only).
    End,
}

#[derive(Clone, Copy, Debug, PartialEq, Eq)]
pub struct Term {
    pub class: u32,
    pub value: u32,
    pub start: u32,
    pub end: u32,
}

/// The command of a line; `None` for empty lines and comments; a message for lines that are neither.
pub fn parse(line: &str) -> Result<Option<Command>, String> {
    let mut words = line.split_ascii_whitespace();
    let Some(word) = words.next() else { return Ok(None) };
    if line.starts_with('#') {
        return Ok(None);
    }
    let arguments: Vec<&str> = words.collect();
    let command = command_of(word, &arguments).ok_or_else(|| format!("not a command: {line:.60}"))?;
    Ok(Some(command))
}

fn command_of(word: &str, arguments: &[&str]) -> Option<Command> {
    if word == "case" {
        return Some(Command::Case(arguments.join(" ")));
    }
    if word == "table" {
        return Some(Command::Table(bytes_of(arguments.first().unwrap_or(&""))?));
    }
    let numbers: Vec<u32> = arguments.iter().map(|a| a.parse().ok()).collect::<Option<_>>()?;
    match (word, numbers.as_slice()) {
        ("start", []) => Some(Command::Start),
        ("term", &[class, value, start, end]) => Some(Command::Term(Term { class, value, start, end })),
        ("takes", &[class]) => Some(Command::Takes(class)),
        ("canend", []) => Some(Command::CanEnd),
        ("canrecover", []) => Some(Command::CanRecover),
        ("stack", &[number]) => Some(Command::Stack(number)),
        ("end", []) => Some(Command::End),
        _ => None,
    }
}

fn bytes_of(hex: &str) -> Option<Vec<u8>> {
    let digits: Option<Vec<u8>> = hex.chars().map(|c| c.to_digit(16).map(|d| d as u8)).collect();
    let digits = digits?;
    let (pairs, rest) = digits.as_chunks::<2>();
    rest.is_empty().then(|| pairs.iter().map(|[high, low]| high << 4 | low).collect())
}

fn hex_of(bytes: &[u8]) -> String {
    let digit = |d: u8| char::from_digit(d as u32, 16).unwrap();
    bytes.iter().flat_map(|b| [digit(b >> 4), digit(b & 15)]).collect()
}

/// The command's word, without its arguments.
pub fn word(command: &Command) -> &'static str {
    match command {
        Command::Case(_) => "case",
        Command::Table(_) => "table",
        Command::Start => "start",
        Command::Term(_) => "term",
        Command::Takes(_) => "takes",
        Command::CanEnd => "canend",
        Command::CanRecover => "canrecover",
        Command::Stack(_) => "stack",
        Command::End => "end",
    }
}

pub fn line_of(command: &Command) -> String {
    let word = word(command);
    match command {
        Command::Case(name) => format!("{word} {name}"),
        Command::Table(bytes) => format!("{word} {}", hex_of(bytes)),
        Command::Term(t) => format!("{word} {} {} {} {}", t.class, t.value, t.start, t.end),
        Command::Takes(number) | Command::Stack(number) => format!("{word} {number}"),
        _ => word.to_string(),
    }
}
