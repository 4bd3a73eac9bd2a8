//! Document 02's T-11 reckoned a second time, from its words alone: "Z falls by exactly k, the largest k ≤ Z for which c^k ×
//! the largest pixel ≤ 255." It is asked of the published Rust's cells, and the divisions of the stages before are its own,
//! so that nothing of ours is on this side.

use crate::beside::{shutter_at, zoom_at};
use crate::judge;
use crate::score::{Outcome, same};
use std::cell::Cell;

/// What is counted of the crossings: three ways in which they may go, and the mistakes that would have got them wrong.
const COUNTED: [&str; 9] = [
    "by 0",
    "raised by closing",
    "zoomed in",
    "wrong would be, 256 for 255",
    "past the zoom",
    "of covered pixels",
    "from the zoom before",
    "before clearing",
    "one level at most",
];

thread_local! {
    static CROSSINGS: Cell<u64> = const { Cell::new(0) };
    static COUNTS: Cell<[u64; COUNTED.len()]> = const { Cell::new([0; COUNTED.len()]) };
}

/// One crossing more, in which these came.
fn count(came: [bool; COUNTED.len()]) {
    let mut counts = COUNTS.get();
    for (count, came) in counts.iter_mut().zip(came) {
        *count += came as u64;
    }
    COUNTS.set(counts);
    CROSSINGS.set(CROSSINGS.get() + 1);
}

/// A crossing of a cell of the Rust's.
#[derive(Clone, Copy)]
pub struct Crossing {
    pub t: u16,
    pub c: u16,
    pub n: u64,
    pub crossed: u64,
    pub state: u64,
}

/// What a cell holds, as the Rust's bytes say it.
#[derive(Clone, Debug, PartialEq)]
struct Held {
    pixels: Vec<u8>,
    zoom: u64,
    shutter: u64,
}

impl Held {
    fn of(t: u16, cell: &[u8]) -> Self {
        let t = t as usize;
        let shutter = cell[shutter_at(t)].iter().rev();
        Self {
            pixels: cell[..zoom_at(t)].to_vec(),
            zoom: cell[zoom_at(t)] as u64,
            shutter: shutter.fold(0, |number, byte| number << 8 | *byte as u64),
        }
    }

    fn largest(&self) -> u64 {
        self.pixels.iter().copied().max().unwrap_or(0) as u64
    }
}

impl Crossing {
    fn slot(&self, sub_window: u64) -> usize {
        (sub_window % (self.t as u64 + 2)) as usize
    }

    fn divided(&self, v: u64, d: u64, state: &mut u64) -> u64 {
        let (after, quotient) = judge::divide(v, d, *state);
        *state = after;
        quotient
    }

    /// A pixel gains 1, or all are divided, or the unit is dropped.
    fn credit(&self, held: &mut Held, slot: usize, state: &mut u64) {
        if held.pixels[slot] < 255 {
            held.pixels[slot] += 1;
        } else if held.zoom < judge::max_zoom(self.c) as u64 {
            held.zoom += 1;
            for at in 0..held.pixels.len() {
                let pixel = if at == slot { 256 } else { held.pixels[at] as u64 };
                held.pixels[at] = self.divided(pixel, self.c as u64, state) as u8;
            }
        }
    }

    fn closed(&self, mut held: Held) -> Held {
        let (shutter, mut state) = (held.shutter, self.state);
        held.shutter = 0;
        let unit = judge::unit(self.c, held.zoom as u8);
        if shutter > 0 && self.divided(shutter, unit, &mut state) == 1 {
            self.credit(&mut held, self.slot(self.n - self.crossed), &mut state);
        }
        held
    }

    fn is_far(&self) -> bool {
        self.crossed >= self.t as u64 + 2
    }

    fn cleared(&self, mut held: Held) -> Held {
        if self.is_far() {
            held.pixels.fill(0);
            held.shutter = 0;
            return held;
        }
        for back in 0..self.crossed {
            held.pixels[self.slot(self.n - back)] = 0;
        }
        held
    }

    /// The largest k of 0 to `zoom` for which c^k × the pixel is at most `room`: of all of them the last that fits. What has
    /// grown past the room stays past it.
    fn levels(&self, zoom: u64, pixel: u64, room: u64) -> u64 {
        let (mut k, mut grown) = (0, pixel);
        for level in 1..=zoom {
            grown = (grown * self.c as u64).min(room + 1);
            if grown <= room {
                k = level;
            }
        }
        k
    }

    fn covered(&self, held: &Held) -> u64 {
        let back = 0..=(self.t as u64).min(self.n);
        let pixels = back.map(|back| held.pixels[self.slot(self.n - back)]);
        pixels.max().unwrap_or(0) as u64
    }

    fn count(&self, before: &Held, closed: &Held, cleared: &Held, k: u64) {
        let (zoom, most) = (cleared.zoom, cleared.largest());
        let raised = zoom - before.zoom;
        count([
            false,
            raised > 0,
            k > 0,
            self.levels(zoom, most, 256) != k,
            self.levels(zoom + 1, most, 255) != k,
            self.levels(zoom, self.covered(cleared), 255) != k,
            raised + self.levels(before.zoom, most, 255) != k,
            self.levels(zoom, closed.largest(), 255) != k,
            self.levels(zoom.min(1), most, 255) != k,
        ]);
    }

    /// What the Rust is to leave of this cell of its own.
    fn reckoned(&self, before: Held) -> Held {
        let closed = if self.is_far() {
            before.clone()
        } else {
            self.closed(before.clone())
        };
        let cleared = self.cleared(closed.clone());
        let k = self.levels(cleared.zoom, cleared.largest(), 255);
        self.count(&before, &closed, &cleared, k);
        let times = (self.c as u64).pow(k as u32);
        Held {
            pixels: cleared
                .pixels
                .iter()
                .map(|pixel| (*pixel as u64 * times) as u8)
                .collect(),
            zoom: cleared.zoom - k,
            shutter: 0,
        }
    }

    /// Whether the Rust left the cell as T-11 says.
    pub fn kept(&self, before: &[u8], after: &judge::After) -> Outcome {
        if self.crossed == 0 {
            count(std::array::from_fn(|at| at == 0));
            return same("a crossing of 0", (&after.cell[..], after.state), (before, self.state));
        }
        let right = self.reckoned(Held::of(self.t, before));
        same("the Rust's cell by T-11", Held::of(self.t, &after.cell), right)
    }
}

/// What was counted, in one line, and whether each of these came.
pub fn told() -> (String, Outcome) {
    let counts = COUNTS.get();
    let each: Vec<String> = COUNTED
        .iter()
        .zip(counts)
        .map(|(what, count)| format!("{what}: {count}"))
        .collect();
    (
        format!("crossings of a cell: {}; {}", CROSSINGS.get(), each.join(", ")),
        same("whether a way or a mistake never came", counts.contains(&0), false),
    )
}
