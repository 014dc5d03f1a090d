//! Counts goto lookups, and stops a command that would never end by a panic of its own.

use std::cell::Cell;

/// Text of the panic that stands for a walk without end.
pub const ENDLESS: &str = "endless";

/// More than any feed within the limits can walk: (16 + 16 * 64 + 16) * 1024.
const MOST_LOOKUPS: u64 = 1_081_344;
/// Room for some 500 reductions of one chain (a frame of the planner takes 350 to 900 bytes); within the limits there are 32.
const MOST_STACK: usize = if cfg!(debug_assertions) { 512 << 10 } else { 192 << 10 };

thread_local! {
    static LOOKUPS: Cell<u64> = const { Cell::new(0) };
    static STACK_AT_START: Cell<usize> = const { Cell::new(0) };
}

/// An address in the frame of the caller's callee: how deep the stack is.
fn stack_now() -> usize {
    let here = 0u8;
    std::ptr::from_ref(std::hint::black_box(&here)) as usize
}

/// To be called before each command.
pub fn reset() {
    LOOKUPS.set(0);
    STACK_AT_START.set(stack_now());
}

pub fn lookups() -> u64 {
    LOOKUPS.get()
}

pub fn count_lookup() {
    LOOKUPS.set(LOOKUPS.get() + 1);
    let deep = STACK_AT_START.get().abs_diff(stack_now()) > MOST_STACK;
    if deep || LOOKUPS.get() > MOST_LOOKUPS {
        panic!("{ENDLESS}");
    }
}
