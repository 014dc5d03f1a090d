//! Runs a command of the original and turns a panic into a line.

use crate::cap;
use std::cell::RefCell;
use std::panic::{AssertUnwindSafe, catch_unwind, set_hook};

thread_local! {
    static LAST: RefCell<String> = const { RefCell::new(String::new()) };
}

/// Panics are remembered with their place instead of being printed.
pub fn remember_panics() {
    set_hook(Box::new(|info| {
        let text = info.payload_as_str().unwrap_or("?").split_ascii_whitespace().collect::<Vec<_>>().join(" ");
        let place = info.location().map(|l| (file_name(l.file()).to_string(), l.line())).unwrap_or_default();
        let line = if text == cap::ENDLESS { text } else { format!("panic {}:{} {text}", place.0, place.1) };
        LAST.with(|last| *last.borrow_mut() = line);
    }));
}

fn file_name(path: &str) -> &str {
    path.rsplit(['/', '\\']).next().unwrap_or(path)
}

/// What `run` gives, or the line that says how it ended.
pub fn guarded<T>(run: impl FnOnce() -> T) -> Result<T, String> {
    cap::reset();
    catch_unwind(AssertUnwindSafe(run)).map_err(|_| LAST.with(|last| last.borrow().clone()))
}
