//! The bytes of a cell: ours by the library's own call, the Rust's by its layout.

use crate::beside::{self, Cells, shutter_at, zoom_at};
use crate::judge;
use crate::score::{Outcome, same_bytes};
use microscope::calls;

/// What stands in a cell of ours where the Rust's has no byte.
const PAD: u8 = 0xA5;

/// Bytes a cell, by the library. Of a t that it refuses, for the causes that stand behind that one: as the depth goes on, four
/// bytes more for each four of t.
pub fn depth(t: u64) -> usize {
    let mut bytes = 0;
    if calls::depth(t, 2, &mut bytes).is_ok() {
        return bytes as usize;
    }
    let like = 4 + t % 4;
    (t as usize).saturating_add(depth(like) - like as usize)
}

fn their_depth(t: u64) -> usize {
    judge::depth(t as u16) as usize
}

/// What the library is to give, reckoned apart from it: as many bytes as the Rust's cell has.
pub fn right_depth(t: u64) -> usize {
    their_depth(t)
}

/// Where the zoom of this cell stands in a grid of ours.
pub fn zoom_of(t: u64, index: usize) -> usize {
    index * depth(t) + zoom_at(t as usize)
}

fn ours(t: u64, bytes: &[u8]) -> Cells<'_> {
    let depth = depth(t);
    Cells { bytes, depth }
}

/// A cell of ours with all that one of the Rust's has, pads too.
pub fn from_theirs(t: u16, mut cell: Vec<u8>) -> Vec<u8> {
    cell.resize(depth(t as u64), PAD);
    cell
}

/// Cells of ours as the Rust takes them.
pub fn to_theirs(t: u64, bytes: &[u8]) -> Vec<u8> {
    ours(t, bytes).at_depth(t as usize, their_depth(t))
}

/// Pixels, zoom and shutter are the Rust's.
pub fn same_cells(what: &str, t: u64, bytes: &[u8], theirs: &[u8]) -> Outcome {
    let theirs = Cells {
        bytes: theirs,
        depth: their_depth(t),
    };
    beside::same_cells(t as usize, ours(t, bytes), theirs).map_err(|difference| format!("{what}: {difference}"))
}

/// What stands behind the shutters of cells of ours.
fn pads(t: u64, bytes: &[u8]) -> Vec<u8> {
    let cells = bytes.chunks_exact(depth(t));
    cells
        .flat_map(|cell| &cell[shutter_at(t as usize).end..])
        .copied()
        .collect()
}

/// The pads are as they were: only a fresh start and a load write them.
pub fn same_pads(t: u64, bytes: &[u8], before: &[u8]) -> Outcome {
    same_bytes("the pads", &pads(t, bytes), &pads(t, before))
}
