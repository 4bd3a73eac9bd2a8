//! Counts fault codes from a small trace, reads them, and reads them again from a store.
//!
//!     faults STORE     writes the store to that file
//!
//! examples/faults.c is the same over the C header and prints the same bytes.

#![forbid(unsafe_code)]

use microscope::{MicroCm, MicroParams, SubWindowClock, calls};
use std::error::Error;

// The last five minutes, by sub-windows of a minute; time stamps are in seconds.
const ROWS: usize = 4;
const COLS: usize = 64;
const T: usize = 5;
const C: u32 = 2;
const MINUTE: u64 = 60;
const EPOCH: u64 = 1000;
const SEED: u64 = 2023;

const CODES: [&str; 5] = ["P0301", "P0420", "P0171", "U0100", "C1201"];

/// At this second the code came so many times.
type Event = (u64, usize, u32);

#[rustfmt::skip]
const TRACE: [Event; 20] = [
    (1003, 0, 4),   (1010, 1, 1),   (1015, 3, 30),  (1042, 0, 9),   (1059, 2, 2),   (1061, 3, 270), (1075, 0, 12),
    (1099, 4, 1),   (1118, 3, 801), (1121, 0, 3),   (1140, 1, 1),   (1166, 3, 95),  (1190, 2, 1),   (1184, 0, 5),
    (1241, 0, 700), (1250, 3, 40),  (1277, 4, 2),   (1301, 0, 333), (1339, 1, 1),   (1342, 3, 7),
];

/// When the reading is made: half a minute after the last event.
const READING_AT: u64 = 1372;

type Peaks = [u64; CODES.len()];

/// A key is one column a row: an FNV-1a of the row and the code, its high bits folded in. Any good hash will do.
fn columns_of(code: &str) -> [u32; ROWS] {
    std::array::from_fn(|row| {
        let start = (14695981039346656037 ^ row as u64).wrapping_mul(1099511628211);
        let hash = code
            .bytes()
            .fold(start, |hash, byte| (hash ^ byte as u64).wrapping_mul(1099511628211));
        (hash ^ hash >> 32) as u32 & (COLS as u32 - 1)
    })
}

/// Raises the M of every code to the highest zoom that its cells hold, or may hold inside the next call: one more where
/// the pixel of the present sub-window is full. An item, or a shutter closed at a crossing, zooms such a cell out, and
/// the crossing in the same call may zoom it in again, so that the zoom after that call does not tell.
fn raise_peaks(counter: &MicroCm, peaks: &mut Peaks) -> Result<(), Box<dyn Error>> {
    let pixel = counter.sub_window() as usize % (T + 2);
    let mut top = 0;
    calls::base_max_zoom(C as u64, &mut top)?;
    for (code, peak) in CODES.iter().zip(peaks) {
        for (row, col) in columns_of(code).into_iter().enumerate() {
            let cell = counter.bucket_slice(row, col as usize)?;
            let mut zoom = 0;
            calls::cell_zoom(cell, T as u64, C as u64, &mut zoom)?;
            *peak = (*peak).max(zoom + (cell[pixel] == 255 && zoom < top) as u64);
        }
    }
    Ok(())
}

/// Gives the M of every code, and the units that were lost on the way: once that is not 0, figures may be too low.
fn count(counter: &mut MicroCm) -> Result<(Peaks, u64), Box<dyn Error>> {
    let mut peaks = [0; CODES.len()];
    let mut lost = 0;
    for (second, code, times) in TRACE {
        for _ in 0..times {
            lost += counter.update_at(&columns_of(CODES[code]), second)?.lost;
            raise_peaks(counter, &mut peaks)?;
        }
    }
    lost += counter.advance_to(READING_AT)?.lost;
    raise_peaks(counter, &mut peaks)?;
    Ok((peaks, lost))
}

/// How far Over may be from the exact count: (2k - 1) x (c^M - 1), k being the sub-windows it adds up. It holds from a
/// fresh start on, without merges, while M is below `calls::base_max_zoom(C)`.
fn band(counter: &MicroCm, peak: u64) -> u64 {
    let k = counter.sub_window().min(T as u64) + 1;
    (2 * k - 1) * ((C as u64).pow(peak as u32) - 1)
}

fn print_figures(counter: &MicroCm, peaks: &Peaks) -> Result<(), Box<dyn Error>> {
    for (code, &peak) in CODES.iter().zip(peaks) {
        let key = columns_of(code);
        let r = counter.estimate(&key)?;
        println!(
            "{code}  over {:4}  under {:4}  linear {:8.3}  a minute {:3}  M {peak}  band {}",
            r.over_items,
            r.under_items,
            r.linear,
            counter.mean(&key)?,
            band(counter, peak)
        );
    }
    Ok(())
}

fn main() -> Result<(), Box<dyn Error>> {
    let path = std::env::args_os().nth(1).ok_or("faults STORE")?;

    let params = MicroParams { t: T, c: C };
    let clock = SubWindowClock::time_based(MINUTE, EPOCH);
    let mut counter = MicroCm::with_dimensions(ROWS, COLS, params, clock, SEED)?;
    let (peaks, lost) = count(&mut counter)?;
    println!("minute {}  units lost {lost}", counter.sub_window());
    print_figures(&counter, &peaks)?;

    let saved = counter.save()?;
    std::fs::write(&path, &saved)?;
    println!("saved: {} bytes", saved.len());
    let mut store = std::fs::read(&path)?;
    print_figures(&MicroCm::load(&store)?, &peaks)?;

    store[700] ^= 1;
    match MicroCm::load(&store) {
        Ok(_) => Err("a changed store was loaded".into()),
        Err(why) => {
            println!("one bit changed: refused by {}", why.number());
            Ok(())
        }
    }
}
