//! Cells of ours beside the published Rust's; bench/src/main.rs compares by this file too.
//!
//! In both a cell begins with t + 2 pixels, the zoom and the four bytes of the shutter, and these are to be the same. How many
//! bytes a cell has, and what stands behind the shutter, is each one's own.

use std::iter::repeat;
use std::ops::Range;

/// Where a cell has its zoom. A t of any size comes here: sizes stop at the largest number.
pub fn zoom_at(t: usize) -> usize {
    t.saturating_add(2)
}

/// Where it has its shutter.
pub fn shutter_at(t: usize) -> Range<usize> {
    let start = zoom_at(t).saturating_add(1);
    start..start.saturating_add(4)
}

/// Cells one behind another, each of so many bytes.
#[derive(Clone, Copy)]
pub struct Cells<'a> {
    pub bytes: &'a [u8],
    pub depth: usize,
}

impl<'a> Cells<'a> {
    /// Pixels, zoom and shutter of each.
    fn shared(self, t: usize) -> impl Iterator<Item = &'a [u8]> {
        let end = shutter_at(t).end;
        self.bytes.chunks_exact(self.depth).map(move |cell| &cell[..end])
    }

    /// How many there are, and how many bytes of one more.
    fn count(self) -> (usize, usize) {
        (self.bytes.len() / self.depth, self.bytes.len() % self.depth)
    }

    /// The same pixels, zooms and shutters in cells of so many bytes; what stands behind them is 0.
    pub fn at_depth(self, t: usize, depth: usize) -> Vec<u8> {
        let cells = self.shared(t);
        cells
            .flat_map(|cell| cell.iter().copied().chain(repeat(0)).take(depth))
            .collect()
    }
}

/// There are as many cells of ours as of theirs, and each has the same pixels, zoom and shutter. Of those that differ the first
/// is told.
pub fn same_cells(t: usize, ours: Cells, theirs: Cells) -> Result<(), String> {
    let (count, right) = (ours.count(), theirs.count());
    if count != right {
        return Err(format!("cells and bytes behind them are {count:?}, expected {right:?}"));
    }
    let mut cells = ours.shared(t).zip(theirs.shared(t)).enumerate();
    let Some((index, (cell, right))) = cells.find(|(_, (cell, right))| cell != right) else {
        return Ok(());
    };
    let at = cell.iter().zip(right).position(|(a, b)| a != b).expect("they differ");
    Err(format!(
        "byte {at} of cell {index} is {}, expected {}",
        cell[at], right[at]
    ))
}
