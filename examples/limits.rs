//! Watches fault codes from a small trace, and prints each minute those that newly reached their limit.
//!
//! examples/limits.c is the same over the C header and prints the same bytes.

#![forbid(unsafe_code)]

use microscope::{Error, MicroCm, MicroParams, SubWindowClock, calls::MOST_CODES};

// The last five minutes, by sub-windows of a minute; time stamps are in seconds.
const ROWS: usize = 4;
const COLS: usize = 64;
const T: usize = 5;
const C: u32 = 2;
const MINUTE: u64 = 60;
const EPOCH: u64 = 1000;
const SEED: u64 = 2023;

const CODES: [&str; 5] = ["P0301", "P0420", "P0171", "U0100", "C1201"];

/// In items inside the window, by the Over figure.
const LIMITS: [u64; CODES.len()] = [20, 3, 2, 250, 5];

/// At this second the code came so many times.
type Event = (u64, usize, u32);

// U0100 comes in two bursts so far apart that the window has lost the first before the second; so does P0171.
#[rustfmt::skip]
const TRACE: [Event; 15] = [
    (1003, 0, 4), (1010, 1, 1), (1015, 3, 30), (1042, 0, 9), (1059, 2, 2),  (1061, 3, 270), (1075, 0, 12),
    (1099, 4, 1), (1121, 0, 3), (1140, 1, 1),  (1184, 1, 1), (1250, 3, 40), (1277, 4, 2),   (1490, 3, 251),
    (1545, 2, 2),
];

/// The first asking is a minute after the start, the last at this second.
const LAST_ASKING: u64 = 1600;

/// A key is one column a row: an FNV-1a of the row and the code, its high bits folded in. Any good hash will do.
fn columns_of(code: &str) -> [u32; ROWS] {
    std::array::from_fn(|row| {
        let start = (14695981039346656037 ^ row as u64).wrapping_mul(1099511628211);
        let hash = code
            .bytes()
            .fold(start, |hash, byte| (hash ^ byte as u64).wrapping_mul(1099511628211));
        (hash ^ hash >> 32) as u32 & (COLS as u32 - 1)
    })
}

/// The columns of one code stand behind those of another, and so do the limits.
fn watch_codes(counter: &mut MicroCm) -> Result<(), Error> {
    counter.set_codes(CODES.map(columns_of).as_flattened(), &LIMITS)
}

/// Prints the codes that newly reached their limit.
fn ask(counter: &mut MicroCm, second: u64) -> Result<(), Error> {
    let reached = counter.ask()?;
    print!("{second:4} s:");
    for &code in &reached {
        let over = counter.estimate(&columns_of(CODES[code]))?.over_items;
        print!(" {} {over} of {}", CODES[code], LIMITS[code]);
    }
    println!("{}", if reached.is_empty() { " nothing new" } else { "" });
    Ok(())
}

/// Asks at every full minute before this second that has not been asked at.
fn ask_before(counter: &mut MicroCm, second: u64, next: &mut u64) -> Result<(), Error> {
    while *next < second {
        counter.advance_to(*next)?;
        ask(counter, *next)?;
        *next += MINUTE;
    }
    Ok(())
}

fn count(counter: &mut MicroCm) -> Result<(), Error> {
    let mut next = EPOCH + MINUTE;
    for (second, code, times) in TRACE {
        ask_before(counter, second, &mut next)?;
        for _ in 0..times {
            counter.update_at(&columns_of(CODES[code]), second)?;
        }
    }
    ask_before(counter, LAST_ASKING + 1, &mut next)
}

/// The number that a call was refused by, 0 if it was accepted.
fn number<R>(answer: Result<R, Error>) -> u64 {
    answer.map_or_else(|why| why.number(), |_| 0)
}

/// Too short a list, and too many codes: both leave the codes and the list as they were.
fn refused(counter: &mut MicroCm) {
    let mut list = [0; CODES.len() - 1];
    let short = number(counter.ask_into(&mut list));
    println!("a list of {} for {} codes: refused by {short}", list.len(), CODES.len());
    let many = number(counter.set_codes(&[0; (MOST_CODES + 1) * ROWS], &[0; MOST_CODES + 1]));
    println!("{} codes: refused by {many}", MOST_CODES + 1);
}

fn main() -> Result<(), Error> {
    let params = MicroParams { t: T, c: C };
    let clock = SubWindowClock::time_based(MINUTE, EPOCH);
    let mut counter = MicroCm::with_dimensions(ROWS, COLS, params, clock, SEED)?;
    watch_codes(&mut counter)?;
    count(&mut counter)?;
    refused(&mut counter);

    // The sketch goes through a store, and the codes do not.
    counter = MicroCm::load(&counter.save()?)?;
    println!("loaded, no codes");
    ask(&mut counter, LAST_ASKING)?;
    watch_codes(&mut counter)?;
    println!("the same codes set anew");
    ask(&mut counter, LAST_ASKING)?;
    ask(&mut counter, LAST_ASKING)
}
