//! `rules`: answers a replay script by the rules.

use base::speaker::speak;
use rules::replay::Replay;
use std::process::ExitCode;

fn main() -> ExitCode {
    match speak(&mut Replay::default()) {
        Ok(()) => ExitCode::SUCCESS,
        Err(message) => {
            eprintln!("{message}");
            ExitCode::FAILURE
        }
    }
}
