//! The calls of the published Rust in the terms of the records: plain numbers and bytes in, plain numbers and bytes
//! out, with the draws counted.

use crate::DataInput;
use crate::sketches::microscope::cell::{self, reach};
use crate::sketches::microscope::{
    DeltaStrategy, MicroCm, MicroLayout, MicroParams, Rounding, SubWindowClock,
};
use std::any::Any;
use std::panic::{AssertUnwindSafe, catch_unwind, resume_unwind, set_hook, take_hook};
use std::sync::OnceLock;

pub type Sketch = MicroCm;

/// More draws than any one record makes; a count that passes it is a mistake of ours.
const MOST_DRAWS: u64 = 1 << 32;

// ---- draws ----

/// The state one draw on. Half of 1 has a remainder, so the division draws exactly once.
fn step(state: u64) -> u64 {
    let rounding = Rounding::new(state);
    cell::unbiased_div_u64(1, 2, &rounding);
    rounding.state()
}

/// How many draws lead from one state to another.
pub fn draws_between(from: u64, to: u64) -> u64 {
    let mut at = from;
    let mut draws = 0;
    while at != to {
        at = step(at);
        draws += 1;
        assert!(draws < MOST_DRAWS, "no way from state {from} to {to}");
    }
    draws
}

pub fn seeded(seed: u64) -> u64 {
    Rounding::new(seed).state()
}

/// One draw: the new state and the value.
///
/// `next_u64` is private to cell.rs, but the division tells its value: by the divisor 2^64 − 1 a dividend r below it
/// is rounded up exactly if the draw (modulo 2^64 − 1, so 0 for 2^64 − 1, as no draw is 0) is below r.
pub fn draw(state: u64) -> (u64, u64) {
    let below = |r: u64| cell::unbiased_div_u64(r, u64::MAX, &Rounding::new(state)) == 1;
    let (mut low, mut high) = (0, u64::MAX);
    // The draw is at least `low` and below `high`.
    while high - low > 1 {
        let middle = low + (high - low) / 2;
        if below(middle) {
            high = middle;
        } else {
            low = middle;
        }
    }
    let value = if low == 0 { u64::MAX } else { low };
    (step(state), value)
}

/// A rounded division: the new state and the quotient.
pub fn divide(v: u64, d: u64, state: u64) -> (u64, u64) {
    let rounding = Rounding::new(state);
    let quotient = cell::unbiased_div_u64(v, d, &rounding);
    (rounding.state(), quotient)
}

/// The same over u32.
pub fn divide_u32(v: u32, d: u32, state: u64) -> (u64, u32) {
    let rounding = Rounding::new(state);
    let quotient = cell::unbiased_div(v, d, &rounding);
    (rounding.state(), quotient)
}

// ---- cells ----

fn layout(t: u16, c: u16) -> MicroLayout {
    MicroLayout::new(MicroParams::new(t as usize, c as u32))
}

pub fn depth(t: u16) -> u16 {
    layout(t, 2).depth() as u16
}

pub fn pixels(t: u16) -> u16 {
    layout(t, 2).pixels() as u16
}

/// c^z, for a z up to max_zoom.
pub fn unit(c: u16, z: u8) -> u64 {
    (c as u64).pow(z as u32)
}

/// The bytes of a cell, its pads from `pads`.
pub fn cell(t: u16, c: u16, pixels: &[u8], z: u8, s: u32, pads: u64) -> Vec<u8> {
    assert!((s as u64) < unit(c, z), "an unsound cell is never fed");
    let mut bytes = pixels.to_vec();
    bytes.push(z);
    bytes.extend_from_slice(&s.to_le_bytes());
    let missing = depth(t) as usize - bytes.len();
    bytes.extend_from_slice(&pads.to_le_bytes()[..missing]);
    bytes
}

/// max_zoom is private to cell.rs, but an insertion shows it: a full pixel that is credited raises any lower zoom.
fn observed_max_zoom(c: u16) -> u8 {
    let mut z = 0;
    loop {
        let s = (unit(c, z) - 1) as u32;
        let full = cell(1, c, &[255, 0, 0], z, s, 0);
        if insert(1, c, 0, 1, &full).cell[3] == z {
            return z;
        }
        z += 1;
    }
}

pub fn max_zoom(c: u16) -> u8 {
    static TABLE: OnceLock<Vec<u8>> = OnceLock::new();
    TABLE.get_or_init(|| (2..=256).map(observed_max_zoom).collect())[c as usize - 2]
}

/// A cell after a call.
#[derive(Debug, PartialEq)]
pub struct After {
    pub cell: Vec<u8>,
    pub state: u64,
    pub draws: u64,
}

fn on_cell(state: u64, cell: &[u8], call: impl Fn(&mut [u8], &Rounding)) -> After {
    let rounding = Rounding::new(state);
    let mut cell = cell.to_vec();
    call(&mut cell, &rounding);
    After {
        cell,
        state: rounding.state(),
        draws: draws_between(state, rounding.state()),
    }
}

pub fn insert(t: u16, c: u16, n: u64, state: u64, cell: &[u8]) -> After {
    on_cell(state, cell, |bytes, rounding| {
        cell::insert(bytes, &layout(t, c), n, rounding);
    })
}

pub fn enter(t: u16, c: u16, new_n: u64, crossed: u64, state: u64, cell: &[u8]) -> After {
    on_cell(state, cell, |bytes, rounding| {
        cell::enter_sub_window(bytes, &layout(t, c), new_n, crossed, rounding);
    })
}

pub fn merge(t: u16, c: u16, n: u64, state: u64, dst: &[u8], src: &[u8]) -> After {
    on_cell(state, dst, |bytes, rounding| {
        cell::merge_cells(bytes, src, &layout(t, c), n, rounding);
    })
}

/// zoom, shutter, and the pixel of n in items, as the bits of its f64.
pub fn fields(t: u16, c: u16, n: u64, cell: &[u8]) -> (u8, u32, u64) {
    let layout = layout(t, c);
    (
        cell::zoom(cell, &layout),
        cell::shutter(cell, &layout),
        cell::scaled_pixel(cell, &layout, n).to_bits(),
    )
}

// ---- clocks ----

/// A clock in the terms of the records: `reading` is seen or now, and a clock that counts has epoch 0.
#[derive(Clone, Copy, Debug, PartialEq)]
pub struct Clock {
    pub timed: bool,
    pub length: u64,
    pub epoch: u64,
    pub reading: u64,
}

impl Clock {
    pub fn published(self) -> SubWindowClock {
        if self.timed {
            SubWindowClock::TimeBased {
                sub_window_len: self.length,
                epoch: self.epoch,
                now: self.reading,
            }
        } else {
            SubWindowClock::CountBased {
                items_per_sub_window: self.length,
                seen: self.reading,
            }
        }
    }

    fn of(clock: SubWindowClock) -> Self {
        match clock {
            SubWindowClock::CountBased {
                items_per_sub_window,
                seen,
            } => Self {
                timed: false,
                length: items_per_sub_window,
                epoch: 0,
                reading: seen,
            },
            SubWindowClock::TimeBased {
                sub_window_len,
                epoch,
                now,
            } => Self {
                timed: true,
                length: sub_window_len,
                epoch,
                reading: now,
            },
        }
    }

    pub fn n(self) -> u64 {
        self.published().n()
    }

    /// The bits of the fraction.
    pub fn fraction(self) -> u64 {
        self.published().residual_fraction().to_bits()
    }

    /// The clock one item on, and whether n rose.
    pub fn tick(self) -> (Self, bool) {
        let mut clock = self.published();
        let crossed = reach::tick(&mut clock);
        (Self::of(clock), crossed)
    }

    /// The clock moved to `to`, and how many sub-windows that crossed.
    pub fn advance_to(self, to: u64) -> (Self, u64) {
        let mut clock = self.published();
        let crossed = reach::advance_to(&mut clock, to);
        (Self::of(clock), crossed)
    }

    pub fn same_frame(self, other: Self) -> bool {
        self.published().same_frame(&other.published())
    }
}

// ---- sketches ----

#[derive(Clone, Copy, Debug, PartialEq)]
pub struct Settings {
    pub rows: u16,
    pub cols: u32,
    pub t: u16,
    pub c: u16,
    pub timed: bool,
    pub length: u64,
    pub epoch: u64,
    pub seed: u64,
}

impl Settings {
    pub fn grid_bytes(&self) -> u64 {
        self.rows as u64 * self.cols as u64 * depth(self.t) as u64
    }

    pub fn make(&self) -> Sketch {
        let params = MicroParams::new(self.t as usize, self.c as u32);
        let clock = if self.timed {
            SubWindowClock::time_based(self.length, self.epoch)
        } else {
            SubWindowClock::count_based(self.length)
        };
        Sketch::with_dimensions(
            self.rows as usize,
            self.cols as usize,
            params,
            clock,
            self.seed,
        )
    }
}

/// The Over, Under and Linear figures and the fraction, as bits.
pub type Figures = [u64; 4];

pub fn key(sketch: &Sketch, columns: &[u16]) -> DataInput {
    DataInput {
        columns: columns.to_vec(),
        bits: sketch.cols().ilog2(),
    }
}

pub fn clock(sketch: &Sketch) -> Clock {
    Clock::of(reach::clock(sketch))
}

pub fn state(sketch: &Sketch) -> u64 {
    reach::state(sketch)
}

pub fn grid(sketch: &Sketch) -> &[u8] {
    sketch.as_storage().as_slice()
}

/// Sets seen or now, and the random state, which is not 0.
pub fn set(sketch: &mut Sketch, reading: u64, state: u64) {
    let clock = Clock {
        reading,
        ..clock(sketch)
    };
    reach::set_clock(sketch, clock.published());
    reach::set_state(sketch, state);
}

pub fn set_grid(sketch: &mut Sketch, bytes: &[u8]) {
    reach::set_grid(sketch, bytes);
}

/// Document 01's number for what the Rust says when it turns a call back.
fn number(text: &str) -> Option<u8> {
    let known = [
        ("update_at() drives a time-based clock", 8),
        ("cannot merge sketches of different shape", 10),
        ("cannot merge sketches whose clocks", 11),
        ("cannot merge sketches at different sub-windows", 12),
        ("DeltaStrategy::Linear takes a fraction", 13),
    ];
    let found = known.iter().find(|(start, _)| text.starts_with(start));
    found.map(|&(_, number)| number)
}

fn panic_number(cause: &(dyn Any + Send)) -> Option<u8> {
    let owned = cause.downcast_ref::<String>().map(String::as_str);
    number(owned.or(cause.downcast_ref::<&str>().copied())?)
}

/// Runs a call that may panic; its number if it did. Only calls that panic before they write are run this way, and a
/// panic that has no number stops us.
fn or_number<R>(call: impl FnOnce() -> R) -> Result<R, u8> {
    catch_unwind(AssertUnwindSafe(call)).map_err(|cause| match panic_number(&*cause) {
        Some(number) => number,
        None => resume_unwind(cause),
    })
}

/// Keeps the panics that `or_number` catches off the screen.
pub fn quietly<R>(work: impl FnOnce() -> R) -> R {
    let loud = take_hook();
    set_hook(Box::new(move |info| {
        if panic_number(info.payload()).is_none() {
            loud(info);
        }
    }));
    let result = work();
    drop(take_hook());
    result
}

pub fn update(sketch: &mut Sketch, columns: &[u16]) {
    let key = key(sketch, columns);
    sketch.update(&key);
}

pub fn update_at(sketch: &mut Sketch, columns: &[u16], time: u64) -> Result<(), u8> {
    let key = key(sketch, columns);
    or_number(|| sketch.update_at(&key, time))
}

pub fn advance_to(sketch: &mut Sketch, time: u64) -> Result<(), u8> {
    or_number(|| sketch.advance_to(time))
}

/// A reading with the clock's fraction.
pub fn read(sketch: &Sketch, columns: &[u16]) -> Figures {
    let key = key(sketch, columns);
    [
        sketch.estimate_with(&key, DeltaStrategy::Over),
        sketch.estimate_with(&key, DeltaStrategy::Under),
        sketch.estimate(&key),
        sketch.residual_fraction(),
    ]
    .map(f64::to_bits)
}

/// A reading with a given fraction.
pub fn read_with(sketch: &Sketch, columns: &[u16], fraction: u64) -> Result<Figures, u8> {
    let key = key(sketch, columns);
    let given = DeltaStrategy::Linear(f64::from_bits(fraction));
    let linear = or_number(|| sketch.estimate_with(&key, given))?;
    let [over, under, ..] = read(sketch, columns);
    Ok([over, under, linear.to_bits(), fraction])
}

pub fn merge_sketches(dst: &mut Sketch, src: &Sketch) -> Result<(), u8> {
    dst.merge(src)
        .map_err(|text| number(&text).expect("one of three texts"))
}
