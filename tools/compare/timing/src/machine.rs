//! The proved machine, through the static library of `crates/bench`: its calls, and the parts of a feed.

use base::script::Term;
use std::hint::black_box;

/// Lengths and places as docs/LAYOUT.md has them.
const STATE: usize = 18532;
const WORK: usize = 46464;
const SLOTS_AT: usize = 18432;
const SLOT: usize = 6;
const COUNT_AT: usize = 18528;

// A slice is passed as its pointer and its length.
unsafe extern "C" {
    fn bench_start(table: *const u8, bytes: usize, state: *mut u8, of: usize, work: *mut u8, long: usize) -> u32;
    fn bench_feed(
        table: *const u8,
        bytes: usize,
        state: *mut u8,
        of: usize,
        work: *mut u8,
        long: usize,
        class: u16,
        value: u32,
        start: u32,
        end: u32,
    ) -> u32;
    fn bench_check(table: *const u8, bytes: usize) -> u32;
    fn bench_state(state: *const u8, of: usize, states: u16) -> u32;
    fn bench_load(state: *const u8, of: usize, work: *mut u8, long: usize);
    fn bench_clear(work: *mut u8, long: usize);
}

/// A table file with the two buffers that the caller lends.
pub struct Machine<'a> {
    table: &'a [u8],
    state: Box<[u8]>,
    work: Box<[u8]>,
}

impl<'a> Machine<'a> {
    pub fn new(table: &'a [u8]) -> Machine<'a> {
        Machine { table, state: vec![0; STATE].into(), work: vec![0; WORK].into() }
    }

    pub fn start(&mut self) -> u32 {
        let (table, state, work) = (black_box(self.table), &mut self.state, &mut self.work);
        unsafe { bench_start(table.as_ptr(), table.len(), state.as_mut_ptr(), STATE, work.as_mut_ptr(), WORK) }
    }

    pub fn feed(&mut self, term: &Term) -> u32 {
        let (table, state, work) = (black_box(self.table), self.state.as_mut_ptr(), self.work.as_mut_ptr());
        let (class, value) = (term.class as u16, term.value);
        unsafe { bench_feed(table.as_ptr(), table.len(), state, STATE, work, WORK, class, value, term.start, term.end) }
    }

    /// The marks of the readings, in their order.
    pub fn marks(&self) -> Vec<u32> {
        let bytes = |at: usize, n: usize| self.state[at..at + n].iter().fold(0, |sum, &b| sum << 8 | b as u32);
        (0..bytes(COUNT_AT, 2) as usize).map(|i| bytes(SLOTS_AT + SLOT * i + 2, 4)).collect()
    }

    pub fn check_table(&self) -> u32 {
        let table = black_box(self.table);
        unsafe { bench_check(table.as_ptr(), table.len()) }
    }

    pub fn check_state(&self, states: u16) -> u32 {
        let state = black_box(&self.state);
        unsafe { bench_state(state.as_ptr(), STATE, states) }
    }

    pub fn load(&mut self) {
        let (state, work) = (black_box(&self.state), &mut self.work);
        unsafe { bench_load(state.as_ptr(), STATE, work.as_mut_ptr(), WORK) }
    }

    pub fn clear(&mut self) {
        unsafe { bench_clear(black_box(&mut self.work).as_mut_ptr(), WORK) }
    }
}
