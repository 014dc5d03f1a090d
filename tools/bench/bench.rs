// Measures the proved check and lookups on a table of about 30 KB: nanoseconds by the clock, instructions by callgrind.
mod file;

use file::{put, put_field};
use std::hint::black_box;
use std::process::Command;
use std::time::Instant;

// The exports of crates/bench; a slice is passed as its pointer and its length.
extern "C" {
    fn bench_check(table: *const u8, bytes: usize) -> u32;
    fn bench_action(table: *const u8, bytes: usize, state: u16, class: u16) -> u32;
    fn bench_goto(table: *const u8, bytes: usize, state: u16, nonterminal: u16) -> u32;
}

const STATES: u16 = 300;
const CLASSES: u16 = 40;
const NONTERMINALS: u16 = 24;
const RULES: u16 = 120;
// how many of a hundred pairs of a state and a class, or a nonterminal, have a record
const DENSITY: u16 = 17;

// A fixed row of numbers that look like chance, so that every run measures the same table.
struct Numbers(u64);

impl Numbers {
    fn below(&mut self, n: u16) -> u16 {
        self.0 ^= self.0 << 13;
        self.0 ^= self.0 >> 7;
        self.0 ^= self.0 << 17;
        (self.0 % u64::from(n)) as u16
    }
}

// Rules of all kinds and lengths.
fn rules(numbers: &mut Numbers) -> Vec<u8> {
    let mut data = vec![];
    for _ in 0..RULES {
        let (len, kind) = (1 + numbers.below(15), numbers.below(4));
        let pick = if kind == 0 { 0 } else { 1 + numbers.below(len) };
        let low = if kind >= 2 { numbers.below(1000) } else { 0 };
        let high = if kind == 3 { low + numbers.below(1000) } else { 0 };
        put(&mut data, numbers.below(NONTERMINALS));
        data.extend([len as u8, kind as u8, pick as u8]);
        for n in [0, numbers.below(65535), 0, low, 0, high] {
            put(&mut data, n);
        }
    }
    data
}

// Half of the records shift; up to four rules. Also how many there are.
fn actions(numbers: &mut Numbers) -> (Vec<u8>, u64) {
    let (mut data, mut count) = (vec![], 0);
    for (state, class) in (0..STATES).flat_map(|s| (0..CLASSES).map(move |c| (s, c))) {
        let start = (state, class) == (0, 2);
        if !start && numbers.below(100) >= DENSITY {
            continue;
        }
        let shifts = start || numbers.below(2) == 0;
        let rules = if shifts { numbers.below(3) } else { 1 + numbers.below(4) };
        for n in [state, class, if shifts { numbers.below(STATES) } else { 65535 }] {
            put(&mut data, n);
        }
        data.push(rules as u8);
        for _ in 0..rules {
            put(&mut data, numbers.below(RULES));
        }
        count += 1;
    }
    (data, count)
}

fn gotos(numbers: &mut Numbers) -> (Vec<u8>, u64) {
    let (mut data, mut count) = (vec![], 0);
    for (state, nonterminal) in (0..STATES).flat_map(|s| (0..NONTERMINALS).map(move |n| (s, n))) {
        if numbers.below(100) < DENSITY {
            for n in [state, nonterminal, numbers.below(STATES)] {
                put(&mut data, n);
            }
            count += 1;
        }
    }
    (data, count)
}

// What is measured: nothing, the check, and the check with a lookup that passes no record or all of them.
fn call(what: &str, table: &[u8]) -> u32 {
    let (at, bytes) = (table.as_ptr(), table.len());
    unsafe {
        match what {
            "check" => bench_check(at, bytes),
            "action-first" => bench_action(at, bytes, 0, 0),
            "action-last" => bench_action(at, bytes, STATES, 0),
            "goto-first" => bench_goto(at, bytes, 0, 0),
            "goto-last" => bench_goto(at, bytes, STATES, 0),
            _ => 0,
        }
    }
}

// Nanoseconds of one call, the best of many rounds, so that what else the machine does is left out.
fn nanoseconds(what: &str, table: &[u8]) -> f64 {
    let calls = 40;
    let round = |_| {
        let start = Instant::now();
        for _ in 0..calls {
            black_box(call(what, black_box(table)));
        }
        start.elapsed().as_nanos() as f64 / f64::from(calls)
    };
    (0..1000).map(round).fold(f64::INFINITY, f64::min)
}

// Instructions of a run of this program that makes one call, by callgrind's count.
fn instructions(what: &str) -> f64 {
    let program = std::env::current_exe().expect("this program's path");
    let run = Command::new("valgrind")
        .args(["--tool=callgrind", "--callgrind-out-file=/dev/null"])
        .arg(program)
        .arg(what)
        .output()
        .expect("valgrind is needed");
    let text = String::from_utf8_lossy(&run.stderr);
    let count = text
        .lines()
        .find_map(|l| l.split_once("Collected : "))
        .expect("callgrind's count")
        .1;
    count.trim().parse().expect("a number")
}

fn main() {
    let mut numbers = Numbers(88172645463325252);
    let mut table = vec![];
    let counts: Vec<u8> = [STATES, CLASSES, NONTERMINALS, RULES]
        .iter()
        .flat_map(|n| n.to_be_bytes())
        .collect();
    put_field(&mut table, 1, &counts);
    put_field(&mut table, 2, &rules(&mut numbers));
    let (action_data, action_count) = actions(&mut numbers);
    put_field(&mut table, 3, &action_data);
    let (goto_data, goto_count) = gotos(&mut numbers);
    put_field(&mut table, 4, &goto_data);
    put_field(&mut table, 5, &[1]);
    if let Some(what) = std::env::args().nth(1) {
        black_box(call(&what, black_box(&table)));
        return;
    }
    assert_eq!(call("check", &table), 1, "the table is right");
    println!(
        "table: {} bytes, {RULES} rules, {action_count} action records, {goto_count} gotos",
        table.len()
    );
    let bytes = table.len() as f64;
    let check = instructions("check") - instructions("nothing");
    println!(
        "check: {:.2} ns a byte, {:.1} instructions a byte",
        nanoseconds("check", &table) / bytes,
        check / bytes
    );
    for (name, records) in [("action", action_count as f64), ("goto", goto_count as f64)] {
        let [first, last] = ["first", "last"].map(|end| format!("{name}-{end}"));
        let time = (nanoseconds(&last, &table) - nanoseconds(&first, &table)) / records;
        let count = (instructions(&last) - instructions(&first)) / records;
        println!("{name} lookup: {time:.2} ns, {count:.1} instructions for each record passed");
    }
}
