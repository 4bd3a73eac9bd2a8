//! Document 02's T-08 reckoned a second time, from its words alone: "Under divided by the lesser of n + 1 and t, rounded
//! down." Under and n are the published Rust's, so that nothing of ours is on this side.

use crate::judge;
use crate::score::{Outcome, same};
use std::cell::Cell;

/// How many means were reckoned, and how many of them each mistake would have got wrong.
#[derive(Clone, Copy)]
struct Counts {
    means: u64,
    by_t: u64,
    by_n: u64,
    by_n_plus_1: u64,
    of_over: u64,
    rounded_up: u64,
    at_the_last_n: u64,
}

thread_local! {
    static COUNTS: Cell<Counts> = const {
        Cell::new(Counts { means: 0, by_t: 0, by_n: 0, by_n_plus_1: 0, of_over: 0, rounded_up: 0, at_the_last_n: 0 })
    };
}

/// The mean of these figures of the Rust's, at its n. In 128 bits n + 1 is a number for every n.
pub fn reckoned(figures: judge::Figures, n: u64, t: u64) -> u64 {
    let [over, under, ..] = figures.map(|bits| f64::from_bits(bits) as u128);
    let (n, t) = (n as u128, t as u128);
    let begun = t.min(n + 1);
    let mean = under / begun;
    let mut counts = COUNTS.get();
    counts.means += 1;
    counts.by_t += (under / t != mean) as u64;
    counts.by_n += (under.checked_div(t.min(n)) != Some(mean)) as u64;
    counts.by_n_plus_1 += (under / (n + 1) != mean) as u64;
    counts.of_over += (over / begun != mean) as u64;
    counts.rounded_up += (under.div_ceil(begun) != mean) as u64;
    counts.at_the_last_n += (n == u64::MAX as u128 && mean > 0) as u64;
    COUNTS.set(counts);
    mean as u64
}

/// What was counted, in one line, and whether each mistake would have been noticed.
pub fn told() -> (String, Outcome) {
    let Counts {
        means,
        by_t,
        by_n,
        by_n_plus_1,
        of_over,
        rounded_up,
        at_the_last_n,
    } = COUNTS.get();
    let line = format!(
        "means: {means}; wrong would be, by t: {by_t}, by n: {by_n}, by n + 1: {by_n_plus_1}, of Over: {of_over}, rounded \
         up: {rounded_up}; not 0 at the last n: {at_the_last_n}"
    );
    let each = [by_t, by_n, by_n_plus_1, of_over, rounded_up, at_the_last_n];
    (
        line,
        same("whether each mistake would show in a mean", each.contains(&0), false),
    )
}
