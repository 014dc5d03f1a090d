//! The command line.

use std::path::PathBuf;
use std::time::Duration;

pub const USAGE: &str = "compare [OPTION VALUE]...
  --original FOLDER   where the builds of `original` lie, as debug/original and release/original (needed)
  --other COMMAND     a program that speaks the replay format, to be compared too (needed)
  --seed N            first seed (1); each batch has the next
  --grammars N        grammars of a batch (90)
  --tables WORD       grammars: tables of grammars; arbitrary: tables that no grammar makes (grammars)
  --terms N           stop after this many terms inside the conditions (1000000)
  --seconds N         stop after this time (200)
  --debug-every N     the debug build takes part in every N-th batch (1)
  --layout WORDS      arguments for `original`: sparse or dense; with check, its nodes are checked after each term (sparse)
  --sample FOLDER     write sample.script and sample.expected there: short cases inside the conditions, as the original answers
  --sample-cases N    how many (2000)
  --smallest FILE     write a small case of each class of differences there
  --script FILE       no random cases: compare on the cases of this script and say how each differs";

pub struct Arguments {
    pub original: PathBuf,
    pub other: String,
    pub seed: u64,
    pub grammars: usize,
    pub arbitrary: bool,
    pub terms: u64,
    pub time: Duration,
    pub debug_every: u64,
    pub layout: String,
    pub sample: Option<PathBuf>,
    pub sample_cases: usize,
    pub smallest: Option<PathBuf>,
    pub script: Option<PathBuf>,
}

pub fn arguments() -> Result<Arguments, String> {
    let mut found = Arguments {
        original: PathBuf::new(),
        other: String::new(),
        seed: 1,
        grammars: 90,
        arbitrary: false,
        terms: 1_000_000,
        time: Duration::from_secs(200),
        debug_every: 1,
        layout: "sparse".to_string(),
        sample: None,
        sample_cases: 2000,
        smallest: None,
        script: None,
    };
    let mut words = std::env::args().skip(1);
    while let Some(option) = words.next() {
        let value = words.next().ok_or(format!("{option} has no value"))?;
        set(&mut found, &option, value)?;
    }
    if found.original.as_os_str().is_empty() || found.other.is_empty() {
        return Err("--original and --other are needed".to_string());
    }
    Ok(found)
}

fn set(found: &mut Arguments, option: &str, value: String) -> Result<(), String> {
    let number = || value.parse::<u64>().map_err(|_| format!("{option} wants a number"));
    match option {
        "--original" => found.original = value.into(),
        "--other" => found.other = value,
        "--seed" => found.seed = number()?,
        "--grammars" => found.grammars = number()? as usize,
        "--tables" => found.arbitrary = value == "arbitrary",
        "--terms" => found.terms = number()?,
        "--seconds" => found.time = Duration::from_secs(number()?),
        "--debug-every" => found.debug_every = number()?.max(1),
        "--layout" => found.layout = value,
        "--sample" => found.sample = Some(value.into()),
        "--sample-cases" => found.sample_cases = number()? as usize,
        "--smallest" => found.smallest = Some(value.into()),
        "--script" => found.script = Some(value.into()),
        _ => return Err(format!("unknown option {option}")),
    }
    Ok(())
}
