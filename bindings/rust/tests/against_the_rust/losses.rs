//! Units lost, added up over the cells of a call, and how many calls each mistake would have got wrong.

use crate::score::{Outcome, same};
use std::cell::Cell;

/// What is counted of the calls: two ways in which they may go, and the mistakes that would have got them wrong.
const COUNTED: [&str; 16] = [
    "by several cells at once",
    "refused where some would be lost",
    "wrong would be, an item's drop not counted",
    "a closing's drop forgotten",
    "a cut not counted",
    "a raise counted",
    "a closing without its draw",
    "what is cleared counted",
    "one for all rows",
    "the first row's for every row",
    "the last row's alone",
    "one cell's for all",
    "pixels cut for units cut",
    "a cut behind a raise forgotten",
    "the draws for the units",
    "the units for the draws",
];

const REFUSED: usize = 1;

thread_local! {
    static CALLS: Cell<u64> = const { Cell::new(0) };
    static UNITS: Cell<u64> = const { Cell::new(0) };
    static COUNTS: Cell<[u64; COUNTED.len()]> = const { Cell::new([0; COUNTED.len()]) };
}

fn count(came: [bool; COUNTED.len()]) {
    let mut counts = COUNTS.get();
    for (count, came) in counts.iter_mut().zip(came) {
        *count += came as u64;
    }
    COUNTS.set(counts);
}

/// One refused call more that told 0, where the same call would lose units if nothing were wrong with it.
pub fn refused() {
    count(std::array::from_fn(|at| at == REFUSED));
}

/// What one cell lost, and what a mistake might count in its place.
#[derive(Clone, Copy, Default)]
pub struct Loss {
    pub units: u64,
    /// What stood above 255 where the zoom rose instead.
    pub raised: u64,
    /// 1 if a shutter closed beside a full pixel at max_zoom and was rounded down.
    pub rounded_down: u64,
    /// Units in the pixels that were cleared.
    pub cleared: u64,
    /// Pixels from which units were cut off.
    pub pixels: u64,
}

/// What a call lost.
#[derive(Default)]
pub struct Lost {
    /// By its item, in each row.
    pub rows: Vec<Loss>,
    /// By its crossing, in each cell.
    pub crossed: Vec<Loss>,
    /// By its merge, in each cell.
    pub merged: Vec<Loss>,
}

fn units(cells: &[Loss]) -> u64 {
    cells.iter().map(|cell| cell.units).sum()
}

impl Lost {
    fn cells(&self) -> impl Iterator<Item = &Loss> {
        self.rows.iter().chain(&self.crossed).chain(&self.merged)
    }

    fn sum(&self, of: impl Fn(&Loss) -> u64) -> u64 {
        self.cells().map(of).sum()
    }

    /// Counts the call, which made so many draws, and gives the units that it lost.
    pub fn counted(&self, draws: u64) -> u64 {
        let lost = self.sum(|cell| cell.units);
        let [in_rows, crossed, merged] = [&self.rows, &self.crossed, &self.merged].map(|cells| units(cells));
        let with_rows = |mistaken: u64| lost - in_rows + mistaken;
        let first = self.rows.first().map_or(0, |row| row.units);
        let last = self.rows.last().map_or(0, |row| row.units);
        let one_cell = self.crossed.iter().chain(&self.merged).map(|cell| cell.units).max();
        count([
            self.cells().filter(|cell| cell.units > 0).count() > 1,
            false,
            with_rows(0) != lost,
            lost - crossed != lost,
            lost - merged != lost,
            lost + self.sum(|cell| cell.raised) != lost,
            lost + self.sum(|cell| cell.rounded_down) != lost,
            lost + self.sum(|cell| cell.cleared) != lost,
            with_rows(in_rows.min(1)) != lost,
            with_rows(first * self.rows.len() as u64) != lost,
            with_rows(last) != lost,
            in_rows + one_cell.unwrap_or(0) != lost,
            lost - merged + self.sum(|cell| cell.pixels) != lost,
            self.merged.iter().any(|cell| cell.raised > 0 && cell.units > 0),
            lost > 0 && draws != lost,
            draws > 0 && draws != lost,
        ]);
        CALLS.set(CALLS.get() + 1);
        UNITS.set(UNITS.get() + lost);
        lost
    }
}

/// What was counted, in one line, and whether each of these came.
pub fn told() -> (String, Outcome) {
    let counts = COUNTS.get();
    let each: Vec<String> = COUNTED
        .iter()
        .zip(counts)
        .map(|(what, count)| format!("{what}: {count}"))
        .collect();
    let (calls, units) = (CALLS.get(), UNITS.get());
    (
        format!(
            "calls that could lose units: {calls}; units lost: {units}, {}",
            each.join(", ")
        ),
        same("whether a loss or a mistake never came", counts.contains(&0), false),
    )
}
