//! Takes the time of several things in turn, so that what else the computer does meets all of them alike.

use std::time::Instant;

const ROUNDS: usize = 10_000;
/// A turn takes about so long: less than a scheduler's slice.
const TURN: f64 = 50_000.0;

pub type Work<'a> = Box<dyn FnMut() + 'a>;

/// Nanoseconds of one piece of work.
#[derive(Clone, Copy)]
pub struct Time {
    pub best: f64,
    pub median: f64,
}

/// A time for each piece of work, in their order.
pub fn take_turns(works: &mut [Work]) -> Vec<Time> {
    let calls: Vec<usize> = works.iter_mut().map(|work| calls_of_turn(work)).collect();
    let mut found = vec![Vec::with_capacity(ROUNDS); works.len()];
    for _ in 0..ROUNDS {
        for ((work, &calls), found) in works.iter_mut().zip(&calls).zip(&mut found) {
            found.push(nanoseconds(work, calls));
        }
    }
    found.into_iter().map(time_of).collect()
}

fn nanoseconds(work: &mut Work, calls: usize) -> f64 {
    let begun = Instant::now();
    (0..calls).for_each(|_| work());
    begun.elapsed().as_nanos() as f64 / calls as f64
}

fn calls_of_turn(work: &mut Work) -> usize {
    let once = (0..20).map(|_| nanoseconds(work, 10)).fold(f64::INFINITY, f64::min);
    (TURN / once).ceil() as usize
}

fn time_of(mut found: Vec<f64>) -> Time {
    found.sort_by(f64::total_cmp);
    Time { best: found[0], median: found[found.len() / 2] }
}
