//! Document 02's T-04 reckoned a second time, from its words and document 01's: "For an insertion that doesn't raise the zoom,
//! the total afterwards plus c^Z × lost equals the total before plus 1. Merge reports the units it cut off above 255, added up
//! over all pixels and cells." It is asked of the published Rust's cells. The divisions are its own, and all that is reckoned
//! on the way is held to what it leaves, so that nothing of ours is on this side.

use crate::judge::{self, After};
use crate::losses::{Loss, Lost};
use crate::score::same;

/// The settings of a cell, by which the Rust's bytes are read.
#[derive(Clone, Copy)]
pub struct Shape {
    pub t: u16,
    pub c: u16,
}

impl Shape {
    fn zoom(self, cell: &[u8]) -> u8 {
        judge::fields(self.t, self.c, 0, cell).0
    }

    fn shutter(self, cell: &[u8]) -> u64 {
        judge::fields(self.t, self.c, 0, cell).1 as u64
    }

    fn pixels(self, cell: &[u8]) -> impl Iterator<Item = u64> {
        let pixels = &cell[..self.slots() as usize];
        pixels.iter().map(|&pixel| pixel as u64)
    }

    fn unit(self, cell: &[u8]) -> u64 {
        judge::unit(self.c, self.zoom(cell))
    }

    fn total(self, cell: &[u8]) -> u64 {
        self.shutter(cell) + self.unit(cell) * self.pixels(cell).sum::<u64>()
    }

    fn slots(self) -> u64 {
        self.t as u64 + 2
    }

    fn slot(self, n: u64) -> usize {
        (n % self.slots()) as usize
    }

    fn at_ceiling(self, cell: &[u8]) -> bool {
        self.zoom(cell) == judge::max_zoom(self.c)
    }

    /// The law of an insertion, of the Rust's own totals, and document 01's words for when a unit is dropped: they must agree.
    pub fn by_item(self, n: u64, before: &[u8], after: &[u8]) -> Result<Loss, String> {
        let mut loss = Loss::default();
        if self.zoom(after) != self.zoom(before) {
            loss.raised = 1;
            return Ok(loss);
        }
        let unit = self.unit(before);
        let full = before[self.slot(n)] == 255;
        loss.units = (full && self.at_ceiling(before) && self.shutter(before) + 1 == unit) as u64;
        let lacking = (self.total(before) + 1).checked_sub(self.total(after));
        same("what an insertion's total lacks", lacking, Some(unit * loss.units))?;
        Ok(loss)
    }

    /// Whether the Rust rounds the shutter of this cell up to a unit: a cell that differs in the pixel alone, which is 254 and
    /// so has room, shows it.
    fn gains(self, n: u64, crossed: u64, state: u64, cell: &[u8]) -> bool {
        let ended = self.slot(n - crossed);
        let mut with_room = cell.to_vec();
        with_room[ended] = 254;
        judge::enter(self.t, self.c, n, crossed, state, &with_room).cell[ended] == 255
    }

    /// Only the shutter's unit can be lost: what is cleared has left the window.
    pub fn by_crossing(self, n: u64, crossed: u64, state: u64, cell: &[u8]) -> Result<Loss, String> {
        let mut loss = Loss::default();
        if crossed >= self.slots() {
            loss.cleared = self.pixels(cell).sum();
            return Ok(loss);
        }
        loss.cleared = (0..crossed).map(|back| cell[self.slot(n - back)] as u64).sum();
        let shutter = self.shutter(cell);
        if crossed == 0 || shutter == 0 || cell[self.slot(n - crossed)] < 255 {
            return Ok(loss);
        }
        let (_, up) = judge::divide(shutter, self.unit(cell), state);
        if !self.at_ceiling(cell) {
            loss.raised = up;
            return Ok(loss);
        }
        let gains = self.gains(n, crossed, state, cell);
        same("whether a shutter is rounded up", up == 1, gains)?;
        loss.units = up;
        loss.rounded_down = 1 - up;
        Ok(loss)
    }

    fn divided(self, sum: u64, state: &mut u64) -> u64 {
        let (after, quotient) = judge::divide(sum, self.c as u64, *state);
        *state = after;
        quotient
    }

    /// A pixel as it is so many levels further out.
    fn further_out(self, pixel: u64, levels: u8, state: &mut u64) -> u64 {
        (0..levels).fold(pixel, |pixel, _| self.divided(pixel, state))
    }

    /// The sums of both cells' pixels with what their shutters carry, and the shutter that is left.
    fn sums(self, n: u64, target: u8, state: &mut u64, dst: &[u8], src: &[u8]) -> (Vec<u64>, u64) {
        let [to_gap, from_gap] = [dst, src].map(|cell| target - self.zoom(cell));
        let pixels = self.pixels(dst).zip(self.pixels(src));
        let mut sums: Vec<u64> = pixels
            .map(|(to, from)| self.further_out(to, to_gap, state) + self.further_out(from, from_gap, state))
            .collect();
        let unit = judge::unit(self.c, target);
        let shutters = self.shutter(dst) + self.shutter(src);
        sums[self.slot(n)] += shutters / unit;
        (sums, shutters % unit)
    }

    /// Document 01's merge up to its cut. What stands above 255 there is lost, and what is left must be the Rust's.
    pub fn by_merge(self, n: u64, before: u64, dst: &[u8], src: &[u8], after: &After) -> Result<Loss, String> {
        let above = |sums: &[u64]| sums.iter().map(|sum| sum.saturating_sub(255)).sum::<u64>();
        let (mut state, highest) = (before, self.zoom(dst).max(self.zoom(src)));
        let (mut sums, shutter) = self.sums(n, highest, &mut state, dst, src);
        let mut loss = Loss::default();
        let mut target = highest;
        while above(&sums) > 0 && target < judge::max_zoom(self.c) {
            loss.raised += above(&sums);
            target += 1;
            sums.iter_mut().for_each(|sum| *sum = self.divided(*sum, &mut state));
        }
        loss.units = above(&sums);
        loss.pixels = sums.iter().filter(|&&sum| sum > 255).count() as u64;
        let cell = &after.cell[..];
        let cut: Vec<u64> = sums.iter().map(|&sum| sum.min(255)).collect();
        let right = (
            self.pixels(cell).collect(),
            self.zoom(cell),
            self.shutter(cell),
            after.state,
        );
        same("a merge reckoned", (cut, target, shutter, state), right)?;
        if self.zoom(dst) == self.zoom(src) && target == highest {
            let both = self.total(dst) + self.total(src);
            let total = self.total(cell) + self.unit(cell) * loss.units;
            same("the total of a merge, with what it lost", total, both)?;
        }
        Ok(loss)
    }
}

/// The units that a call loses.
pub type Units = Result<u64, String>;

/// A cell of the Rust's after a call, and the units that the call loses.
pub type Left = Result<(After, u64), String>;

fn left(after: After, lost: Lost) -> Left {
    let units = lost.counted(after.draws);
    Ok((after, units))
}

pub fn insert(t: u16, c: u16, n: u64, state: u64, cell: &[u8]) -> Left {
    let (after, mut lost) = (judge::insert(t, c, n, state, cell), Lost::default());
    lost.rows.push(Shape { t, c }.by_item(n, cell, &after.cell)?);
    left(after, lost)
}

pub fn enter(t: u16, c: u16, n: u64, crossed: u64, state: u64, cell: &[u8]) -> Left {
    let (after, mut lost) = (judge::enter(t, c, n, crossed, state, cell), Lost::default());
    lost.crossed.push(Shape { t, c }.by_crossing(n, crossed, state, cell)?);
    left(after, lost)
}

pub fn merge(t: u16, c: u16, n: u64, state: u64, dst: &[u8], src: &[u8]) -> Left {
    let (after, mut lost) = (judge::merge(t, c, n, state, dst, src), Lost::default());
    lost.merged.push(Shape { t, c }.by_merge(n, state, dst, src, &after)?);
    left(after, lost)
}
