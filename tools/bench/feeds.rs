// Measures single feeds of the proved machine: `stack`, how deep they go; `longest`, how long the longest one found takes.
mod file;
mod made;

use made::{HIGHER, SPLIT, UNKNOWN, WORD};
use std::arch::asm;
use std::ffi::{c_long, c_void};
use std::time::Instant;

// The exports of crates/bench; a slice is passed as its pointer and its length.
extern "C" {
    fn bench_start(table: *const u8, n: usize, state: *mut u8, of: usize, work: *mut u8, long: usize) -> u32;
    fn bench_feed(
        table: *const u8,
        n: usize,
        state: *mut u8,
        of: usize,
        work: *mut u8,
        long: usize,
        class: u16,
        value: u32,
        start: u32,
        end: u32,
    ) -> u32;
}

// The C library's: microseconds of the processor that this process has taken, so that other work does not count.
extern "C" {
    fn clock() -> c_long;
}

const STATE: usize = 18532;
const WORK: usize = 46464;
// The stack that a feed gets, and what it is painted with.
const ROOM: usize = 1 << 20;
const PAINT: u8 = 0xa5;

struct Line<'a> {
    table: &'a [u8],
    state: Vec<u8>,
    work: Vec<u8>,
    class: u16,
    answer: u32,
}

impl Line<'_> {
    // After a start and these terms, each of which has to be taken.
    fn after<'a>(table: &'a [u8], classes: &[u16]) -> Line<'a> {
        let mut line = Line {
            table,
            state: vec![0; STATE],
            work: vec![0; WORK],
            class: 0,
            answer: 0,
        };
        let (state, work) = (line.state.as_mut_ptr(), line.work.as_mut_ptr());
        let started = unsafe { bench_start(table.as_ptr(), table.len(), state, STATE, work, WORK) };
        assert_eq!(started, 0, "the table is right");
        for &class in classes {
            line.class = class;
            line.feed();
            assert_eq!(line.answer, 0, "a term of class {class} is taken");
        }
        line
    }

    #[inline(always)]
    fn feed(&mut self) {
        let (state, work) = (self.state.as_mut_ptr(), self.work.as_mut_ptr());
        let (table, n) = (self.table.as_ptr(), self.table.len());
        self.answer = unsafe { bench_feed(table, n, state, STATE, work, WORK, self.class, 7, 0, 1) };
    }
}

unsafe extern "C" fn feed_line(line: *mut c_void) {
    unsafe { (*(line as *mut Line)).feed() }
}

unsafe extern "C" fn nothing(_: *mut c_void) {}

// Bytes of a painted stack that are written while the function runs.
fn depth(function: unsafe extern "C" fn(*mut c_void), argument: *mut c_void) -> usize {
    let mut room = vec![PAINT; ROOM];
    let top = (room.as_mut_ptr() as usize + ROOM) & !63;
    unsafe {
        asm!(
            "mov r12, rsp", "mov rsp, {top}", "call {function}", "mov rsp, r12",
            top = in(reg) top, function = in(reg) function, in("rdi") argument,
            out("r12") _, clobber_abi("C"),
        );
    }
    let base = top - room.as_ptr() as usize;
    base - room[..base].iter().position(|&byte| byte != PAINT).unwrap_or(base)
}

// Bytes of stack below the caller of the feed of this class.
fn feed_depth(table: &[u8], before: &[u16], class: u16) -> usize {
    let mut line = Line::after(table, before);
    line.class = class;
    let deep = depth(feed_line, &raw mut line as *mut c_void) - depth(nothing, std::ptr::null_mut());
    assert_eq!(line.answer, 0, "the measured term is taken");
    deep
}

fn stack() {
    let t1 = include_bytes!("../../crates/known_files/data/t1.tab");
    let high = [vec![WORD, SPLIT], vec![HIGHER; 61]].concat();
    let files = [made::chain(0), made::chain(3), made::recovering(0), made::recovering(3)].map(|table| table.file());
    let [chain, dead, recovering, recovering_dead] = &files;
    let cases: [(&str, &[u8], &[u16], u16); 6] = [
        ("T1: a shift", t1, &[], WORD),
        ("T1: four reductions, two readings", t1, &[WORD], SPLIT),
        ("a chain of 32 reductions", chain, &[WORD], SPLIT),
        ("the same, three dead ends in front of each", dead, &[WORD], SPLIT),
        (
            "16 readings of height 64 recover, a chain of 32 at height 1",
            recovering,
            &high,
            UNKNOWN,
        ),
        (
            "the same, three dead ends in front of each",
            recovering_dead,
            &high,
            UNKNOWN,
        ),
    ];
    println!("bytes of stack below the caller of a feed");
    for (what, table, before, class) in cases {
        println!("  {what:<62}{:>8}", feed_depth(table, before, class));
    }
}

fn longest() {
    const UNUSED: u16 = 9000;
    let high = [vec![WORD, SPLIT], vec![HIGHER; 60]].concat();
    println!("16 readings of height 63 recover, 1,022 reductions walked at each height");
    for unused in [0, UNUSED] {
        let file = made::costly(unused).file();
        let mut line = Line::after(&file, &high);
        line.class = UNKNOWN;
        let (begun, processor) = (Instant::now(), unsafe { clock() });
        line.feed();
        let processor = (unsafe { clock() } - processor) as f64 / 1e6;
        let (bytes, answer, seconds) = (file.len(), line.answer, begun.elapsed().as_secs_f64());
        println!(
            "  table of {bytes} bytes: answer {answer}, {processor:.2} s of the processor, {seconds:.2} s by the clock"
        );
    }
}

fn main() {
    match std::env::args().nth(1).as_deref() {
        Some("stack") => stack(),
        Some("longest") => longest(),
        _ => panic!("stack or longest"),
    }
}
