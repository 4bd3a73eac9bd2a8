//! Our calls beside the published Rust's: one process, the same keys, the same clock readings. See docs/BENCHMARK.md.

// The published files say `use smallvec::SmallVec`; this crate answers to that name.
extern crate self as smallvec;

mod choice;
mod ours;
mod standins;

// The structs as the wrapper declares them.
#[allow(dead_code)]
#[path = "../../bindings/rust/src/plain.rs"]
mod plain;

// What the wrapper's tests compare cells by.
#[path = "../../bindings/rust/tests/against_the_rust/beside.rs"]
mod beside;

// The published files, found through the links that oracle/tree makes.
#[rustfmt::skip]
#[allow(dead_code, unused_imports)]
#[path = "../../target/oracle/tree/sketches"]
mod sketches {
    pub mod microscope;
}

#[rustfmt::skip]
#[allow(dead_code)]
#[path = "../../target/oracle/tree/common"]
mod common {
    pub use crate::standins::MATRIX_MAX_ROWS;
    pub mod structures {
        pub mod matrix_storage;
        pub mod vector3d;
    }
}

pub use common::structures::matrix_storage::MatrixFastHash;
pub use common::structures::vector3d::Vector3D;
pub use standins::{Columns as DefaultXxHasher, DataInput, SketchHasher, SmallVec, analytics};

use beside::{Cells, same_cells};
use choice::Choice;
use ours::{Codes, Ours};
use sketches::microscope::cell::reach;
use sketches::microscope::{MicroCm, MicroParams, SubWindowClock};
use std::hint::black_box;
use std::time::{Duration, Instant};

type Theirs = MicroCm;

#[derive(Clone, Copy)]
struct Shape {
    rows: usize,
    cols: usize,
    t: usize,
    c: u32,
    length: u64,
}

impl Shape {
    fn theirs(self, timed: bool) -> Theirs {
        let clock = if timed {
            SubWindowClock::time_based(self.length, 0)
        } else {
            SubWindowClock::count_based(self.length)
        };
        Theirs::with_dimensions(self.rows, self.cols, MicroParams::new(self.t, self.c), clock, 1)
    }

    fn ours(self, timed: bool) -> Ours {
        Ours::new(self.rows, self.cols, self.t, self.c, timed, self.length, 1)
    }

    fn key(self, seed: u64) -> Key {
        let mut choice = Choice(seed);
        let bits = self.cols.ilog2();
        let columns: Vec<u32> = (0..self.rows).map(|_| (choice.next() % self.cols as u64) as u32).collect();
        let packed = columns.iter().rev().fold(0u128, |packed, &column| (packed << bits) | column as u128);
        Key { columns, packed: DataInput { packed } }
    }

    fn keys(self, kind: Keys, count: usize) -> Vec<Key> {
        let mut choice = Choice(7);
        (0..count)
            .map(|_| match kind {
                Keys::Uniform => self.key(choice.next() % 10_000),
                // Half of all items are of one key, a quarter of the next, and so on.
                Keys::Skewed => self.key(choice.next().leading_ones() as u64),
                Keys::One => self.key(0),
            })
            .collect()
    }
}

#[derive(Clone, Copy)]
enum Keys {
    Uniform,
    Skewed,
    One,
}

struct Key {
    columns: Vec<u32>,
    packed: DataInput,
}

/// The shorter of several timings of each, taken in turns, for one call of `calls`.
fn timed(calls: u64, mut ours: impl FnMut() -> Duration, theirs: Option<&mut dyn FnMut() -> Duration>) -> (f64, Option<f64>) {
    let mut best = (f64::INFINITY, f64::INFINITY);
    let mut theirs = theirs;
    for _ in 0..31 {
        best.0 = best.0.min(ours().as_nanos() as f64 / calls as f64);
        if let Some(theirs) = theirs.as_mut() {
            best.1 = best.1.min(theirs().as_nanos() as f64 / calls as f64);
        }
    }
    (best.0, theirs.map(|_| best.1))
}

fn clocked(work: impl FnOnce()) -> Duration {
    let start = Instant::now();
    work();
    start.elapsed()
}

fn told(what: &str, shape: Shape, (ours, theirs): (f64, Option<f64>), aim: &str) {
    let place = format!("{} x {}, t {}, c {}", shape.rows, shape.cols, shape.t, shape.c);
    match theirs {
        Some(theirs) => println!("| {what} | {place} | {ours:.0} | {theirs:.0} | {:.2} | {aim} |", ours / theirs),
        None => println!("| {what} | {place} | {ours:.0} | | | {aim} |"),
    }
}

/// Both must have come to the same pixels, zooms and shutters: a benchmark of two different things says nothing.
fn same(ours: &Ours, theirs: &Theirs) {
    let right = Cells { bytes: theirs.as_storage().as_slice(), depth: theirs.cell_bytes() };
    assert_eq!(same_cells(ours.sketch.t as usize, ours.cells(), right), Ok(()), "the grids differ");
    assert_eq!(ours.sketch.state, reach::state(theirs), "the states differ");
}

fn updates(keys: &str, shape: Shape, kind: Keys, calls: usize, aim: &str) {
    let items = shape.keys(kind, calls);
    let (mut ours, mut theirs) = (shape.ours(false), shape.theirs(false));
    let figures = timed(
        calls as u64,
        || clocked(|| items.iter().for_each(|key| ours.update(&key.columns))),
        Some(&mut || clocked(|| items.iter().for_each(|key| theirs.update(&key.packed)))),
    );
    same(&ours, &theirs);
    told(&format!("update, {keys}"), shape, figures, aim);
}

/// An item for each unit of time, so that sub-windows have as many as by a clock of items.
fn updates_at(keys: &str, shape: Shape, kind: Keys, calls: usize, aim: &str) {
    let items = shape.keys(kind, calls);
    let (mut ours, mut theirs) = (shape.ours(true), shape.theirs(true));
    let (mut now, mut their_now) = (0.., 0..);
    let figures = timed(
        calls as u64,
        || clocked(|| items.iter().zip(&mut now).for_each(|(key, time)| ours.update_at(&key.columns, time))),
        Some(&mut || clocked(|| items.iter().zip(&mut their_now).for_each(|(key, time)| theirs.update_at(&key.packed, time)))),
    );
    same(&ours, &theirs);
    told(&format!("update_at, {keys}"), shape, figures, aim);
}

/// A sketch of time, filled so that cells have zoomed.
fn filled(shape: Shape, items: usize) -> (Ours, Theirs) {
    let (mut ours, mut theirs) = (shape.ours(true), shape.theirs(true));
    let mut counting = Shape { length: 1 << 40, ..shape }.ours(false);
    for key in shape.keys(Keys::Skewed, items).iter().chain(&shape.keys(Keys::Uniform, items)) {
        counting.update(&key.columns);
    }
    ours.grid.copy_from_slice(&counting.grid);
    ours.sketch.state = counting.sketch.state;
    let grid = counting.cells().at_depth(shape.t, theirs.cell_bytes());
    reach::set_grid(&mut theirs, &grid);
    reach::set_state(&mut theirs, counting.sketch.state);
    (ours, theirs)
}

fn crossings(what: &str, shape: Shape, aim: &str) {
    let (ours, theirs) = filled(shape, 200_000);
    let (mut ours_at, mut theirs_at) = (ours.clone(), theirs.clone());
    let steps = 2 * shape.t.min(64) as u64;
    let figures = timed(
        steps,
        || {
            ours_at = ours.clone();
            clocked(|| (1..=steps).for_each(|step| ours_at.advance_to(step * shape.length)))
        },
        Some(&mut || {
            theirs_at = theirs.clone();
            clocked(|| (1..=steps).for_each(|step| theirs_at.advance_to(step * shape.length)))
        }),
    );
    same(&ours_at, &theirs_at);
    told(what, shape, figures, aim);
}

/// One that was filled and whose clock has gone on, so that every figure adds up a whole window.
fn aged(shape: Shape) -> (Ours, Theirs) {
    let (mut ours, mut theirs) = filled(shape, 100_000);
    let past = 3 * shape.t as u64 * shape.length + shape.length / 3;
    for time in (1..=3 * shape.t as u64).map(|n| n * shape.length).chain([past]) {
        ours.advance_to(time);
        theirs.advance_to(time);
    }
    (ours, theirs)
}

fn readings(what: &str, shape: Shape, aim: &str) {
    let (ours, theirs) = aged(shape);
    let keys = shape.keys(Keys::Skewed, 1_000);
    for key in &keys {
        assert_eq!(ours.estimate(&key.columns).figures.linear.to_bits(), theirs.estimate(&key.packed).to_bits(), "the figures differ");
    }
    let figures = timed(
        keys.len() as u64,
        || clocked(|| keys.iter().for_each(|key| { black_box(ours.estimate(&key.columns)); })),
        Some(&mut || clocked(|| keys.iter().for_each(|key| { black_box(theirs.estimate(&key.packed)); }))),
    );
    told(what, shape, figures, aim);
}

fn merges(what: &str, shape: Shape, aim: &str) {
    let (ours, theirs) = filled(shape, 100_000);
    let (other, others) = filled(shape, 30_000);
    let (mut ours_at, mut theirs_at) = (ours.clone(), theirs.clone());
    let figures = timed(
        1,
        || {
            ours_at = ours.clone();
            clocked(|| ours_at.merge(&other))
        },
        Some(&mut || {
            theirs_at = theirs.clone();
            clocked(|| theirs_at.merge(&others).unwrap())
        }),
    );
    same(&ours_at, &theirs_at);
    told(what, shape, figures, aim);
}

/// What the Rust doesn't have.
fn alone(shape: Shape) {
    let (mut ours, _) = filled(shape, 100_000);
    let mut store = ours.store();
    told("audit", shape, timed(1, || clocked(|| assert_eq!(ours.audit(), 0)), None), "below a crossing");
    told("save", shape, timed(1, || clocked(|| ours.save(&mut store)), None), "");
    told("load", shape, timed(1, || clocked(|| ours.load(&store)), None), "");
}

/// Beside as many readings of ours: the Rust has no mean.
fn means(what: &str, ours: &Ours, shape: Shape) {
    let keys = shape.keys(Keys::Skewed, 1_000);
    let figures = timed(
        keys.len() as u64,
        || clocked(|| keys.iter().for_each(|key| { black_box(ours.mean(&key.columns)); })),
        Some(&mut || clocked(|| keys.iter().for_each(|key| { black_box(ours.estimate(&key.columns)); }))),
    );
    told(what, shape, figures, "");
}

/// So many codes, every other one at its limit; set, and with their keys.
fn watched(ours: &Ours, shape: Shape, count: u64) -> (Codes, Vec<Key>) {
    let keys: Vec<Key> = (0..count).map(|seed| shape.key(seed)).collect();
    let limits: Vec<u64> = (0..).zip(&keys).map(|(code, key)| ours.estimate(&key.columns).items.over + code % 2).collect();
    let mut codes = Codes::none();
    ours.set_codes(&mut codes, &columns(&keys), &limits);
    (codes, keys)
}

/// Those of one code behind those of another.
fn columns(keys: &[Key]) -> Vec<u32> {
    keys.iter().flat_map(|key| key.columns.clone()).collect()
}

fn settings(what: &str, ours: &Ours, shape: Shape, count: u64) {
    let (mut codes, keys) = watched(ours, shape, count);
    let (columns, limits) = (columns(&keys), vec![1; keys.len()]);
    let calls = 1_000;
    let figures = timed(calls, || clocked(|| (0..calls).for_each(|_| ours.set_codes(&mut codes, &columns, &limits))), None);
    told(what, shape, figures, "");
}

/// Beside as many readings of ours: the Rust has no codes.
fn askings(what: &str, ours: &Ours, shape: Shape, count: u64, aim: &str) {
    let (mut codes, keys) = watched(ours, shape, count);
    let mut list = vec![0; keys.len()];
    assert_eq!(ours.ask(&mut codes, &mut list), keys.len().div_ceil(2), "the codes listed differ");
    let calls = 64_000 / count;
    let figures = timed(
        calls,
        || clocked(|| (0..calls).for_each(|_| { black_box(ours.ask(&mut codes, &mut list)); })),
        Some(&mut || clocked(|| (0..calls).for_each(|_| keys.iter().for_each(|key| { black_box(ours.estimate(&key.columns)); })))),
    );
    told(what, shape, figures, aim);
}

/// What is held to readings of ours, in a table of its own.
fn beside_readings(shape: Shape) {
    println!("\n| call | grid | ours, ns | as many readings of ours, ns | ratio | aim |");
    println!("|---|---|---|---|---|---|");
    let (ours, _) = aged(shape);
    means("mean", &ours, shape);
    means("mean, just after the start", &shape.ours(false), shape);
    settings("setting 64 codes", &ours, shape, 64);
    askings("asking, one code", &ours, shape, 1, "");
    askings("asking, 64 codes", &ours, shape, 64, "1.1");
}

fn updates_of_all_keys(shape: Shape, calls: usize, aim: &str) {
    updates("uniform keys", shape, Keys::Uniform, calls, aim);
    updates("skewed keys", shape, Keys::Skewed, calls, aim);
    updates("one key", shape, Keys::One, calls, aim);
}

/// With the aims of a crossing, a reading and a merge.
fn all_but_updates(shape: Shape, [crossing, reading, merge]: [&str; 3]) {
    crossings("crossing", shape, crossing);
    readings("reading", shape, reading);
    merges("merge", shape, merge);
    alone(shape);
}

fn main() {
    println!("| call | grid | ours, ns | the Rust, ns | ratio | aim |");
    println!("|---|---|---|---|---|---|");
    let shape = Shape { rows: 4, cols: 1024, t: 12, c: 2, length: 4096 };
    updates_of_all_keys(shape, 200_000, "0.9");
    updates_at("uniform keys", shape, Keys::Uniform, 200_000, "");
    all_but_updates(shape, ["1.0", "0.5", "0.5"]);
    for (rows, cols, t) in [(4, 1024, 1), (4, 16, 4096), (1, 1024, 12), (128, 2, 12), (4, 65536, 12)] {
        let shape = Shape { rows, cols, t, ..shape };
        // Fewer items for grids that cross slowly.
        let calls = if cols == 65536 { 20_000 } else { 100_000 };
        // One row is where a call's own cost shows most.
        if rows == 1 {
            updates_of_all_keys(shape, calls, "1.0");
        } else {
            updates("uniform keys", shape, Keys::Uniform, calls, "");
        }
        all_but_updates(shape, [""; 3]);
    }
    // Bases whose units are no shifts: the next one, one in the middle, the last.
    for c in [3, 16, 256] {
        let shape = Shape { c, ..shape };
        updates_of_all_keys(shape, 200_000, "");
        all_but_updates(shape, [""; 3]);
    }
    beside_readings(shape);
}
