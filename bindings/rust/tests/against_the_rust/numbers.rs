//! Document 01, "Turning a call back", written down a second time: the causes of a call on any values.
//!
//! Every cause can be asked for, also where one before it holds. So each is told for values out of range too: sizes stop
//! at the largest number, a sub-window of length 0 has no number, and only what the lent bytes hold whole is a cell.

use crate::beside::{shutter_at, zoom_at};
use crate::layout::depth;
use crate::stores::{BLOCK, CARRIED};
use microscope::calls::Sketch;

/// The numbers of a call, in the order in which they are looked at, and whether the cause of each holds.
pub type Causes = Vec<(u64, bool)>;

/// The number that a call is refused by: that of the first cause that holds, 0 if none does.
pub fn first(causes: &Causes) -> u64 {
    causes.iter().find(|(_, holds)| *holds).map_or(0, |&(number, _)| number)
}

/// These causes behind those before them.
pub fn then<const N: usize>(mut before: Causes, more: [(u64, bool); N]) -> Causes {
    before.extend(more);
    before
}

fn fit(rows: u64, cols: u64) -> bool {
    let power = cols.is_power_of_two() && (2..=65_536).contains(&cols);
    power && (1..=128).contains(&rows) && rows * cols.ilog2() as u64 <= 128
}

pub fn params(t: u64, c: u64) -> Causes {
    vec![(1, !(1..=4096).contains(&t)), (2, !(2..=256).contains(&c))]
}

/// 1 to 4.
fn settings(s: &Sketch) -> Causes {
    then(
        params(s.t, s.c),
        [
            (3, s.kind > 1 || !(1..=1 << 53).contains(&s.length)),
            (4, !fit(s.rows, s.cols)),
        ],
    )
}

/// 1 to 5.
pub fn sketch(s: &Sketch) -> Causes {
    then(settings(s), [(5, s.state == 0)])
}

pub fn grid_bytes(s: &Sketch) -> usize {
    let cells = s.rows.saturating_mul(s.cols);
    (cells as usize).saturating_mul(depth(s.t))
}

/// A fresh start is handed no random state.
pub fn fresh(s: &Sketch, grid: &[u8]) -> Causes {
    then(settings(s), [(6, grid.len() != grid_bytes(s))])
}

/// 1 to 6.
pub fn with_grid(s: &Sketch, grid: &[u8]) -> Causes {
    then(sketch(s), [(6, grid.len() != grid_bytes(s))])
}

pub fn key_fits(s: &Sketch, key: &[u32]) -> bool {
    key.len() as u64 == s.rows && key.iter().all(|&column| (column as u64) < s.cols)
}

/// 1 to 7.
fn with_key(s: &Sketch, key: &[u32], grid: &[u8]) -> Causes {
    then(with_grid(s, grid), [(7, !key_fits(s, key))])
}

fn n_at(s: &Sketch, reading: u64) -> Option<u64> {
    match s.kind {
        0 => reading.checked_div(s.length),
        1 => reading.saturating_sub(s.epoch).checked_div(s.length),
        _ => None,
    }
}

fn n_of(s: &Sketch) -> Option<u64> {
    n_at(s, s.reading)
}

/// c^z, if a cell can have that zoom: 31 is the largest of any base, and so also of one out of range.
pub fn unit(c: u64, z: u8) -> Option<u64> {
    let unit = c.checked_pow(z as u32)?;
    (z <= 31 && unit <= u32::MAX as u64).then_some(unit)
}

fn unsound(t: u64, c: u64, cell: &[u8]) -> bool {
    let t = t as usize;
    let Some(&[z, s0, s1, s2, s3]) = cell.get(zoom_at(t)..shutter_at(t).end) else {
        return false;
    };
    let s = u32::from_le_bytes([s0, s1, s2, s3]) as u64;
    unit(c, z).is_none_or(|unit| s >= unit)
}

pub fn unsound_at(s: &Sketch, grid: &[u8], index: usize) -> bool {
    let cell = grid.chunks_exact(depth(s.t)).nth(index);
    cell.is_some_and(|cell| unsound(s.t, s.c, cell))
}

pub fn any_unsound(s: &Sketch, grid: &[u8]) -> bool {
    grid.chunks_exact(depth(s.t)).any(|cell| unsound(s.t, s.c, cell))
}

/// The index of a cell, if there is one.
pub fn cell_at(s: &Sketch, row: u64, column: u64) -> usize {
    row.saturating_mul(s.cols).saturating_add(column) as usize
}

fn key_unsound(s: &Sketch, key: &[u32], grid: &[u8]) -> bool {
    let columns = (0..s.rows).zip(key.iter().map(|&column| column as u64));
    columns
        .filter(|&(_, column)| column < s.cols)
        .any(|(row, column)| unsound_at(s, grid, cell_at(s, row, column)))
}

/// Whether a call on this kind of clock crosses on the way to this reading. One for the other kind crosses nothing.
pub fn crosses(s: &Sketch, kind: u64, reading: u64) -> bool {
    s.kind == kind && n_at(s, reading) != n_of(s)
}

/// Whether an unsound cell is judged on the way to this reading: of all cells if the clock crosses, else of the key's.
fn judged(s: &Sketch, key: &[u32], kind: u64, reading: u64, grid: &[u8]) -> bool {
    if crosses(s, kind, reading) {
        any_unsound(s, grid)
    } else {
        key_unsound(s, key, grid)
    }
}

pub fn update(s: &Sketch, key: &[u32], grid: &[u8]) -> Causes {
    let unsound = judged(s, key, 0, s.reading.saturating_add(1), grid);
    then(with_key(s, key, grid), [(8, s.kind == 1), (14, unsound)])
}

pub fn update_at(s: &Sketch, key: &[u32], time: u64, grid: &[u8]) -> Causes {
    let unsound = judged(s, key, 1, s.reading.max(time), grid);
    then(with_key(s, key, grid), [(8, s.kind == 0), (14, unsound)])
}

pub fn advance_to(s: &Sketch, time: u64, grid: &[u8]) -> Causes {
    let unsound = judged(s, &[], 1, s.reading.max(time), grid);
    then(with_grid(s, grid), [(8, s.kind == 0), (14, unsound)])
}

/// A reading with the clock's fraction, and a mean.
pub fn read(s: &Sketch, key: &[u32], grid: &[u8]) -> Causes {
    then(with_key(s, key, grid), [(14, key_unsound(s, key, grid))])
}

pub fn read_with(s: &Sketch, key: &[u32], fraction: f64, grid: &[u8]) -> Causes {
    let full = n_of(s).is_some_and(|n| n >= s.t);
    then(
        with_key(s, key, grid),
        [
            (13, full && !(0.0..=1.0).contains(&fraction)),
            (14, key_unsound(s, key, grid)),
        ],
    )
}

pub fn bucket(s: &Sketch, row: u64, col: u64, grid: &[u8]) -> Causes {
    then(with_grid(s, grid), [(7, row >= s.rows || col >= s.cols)])
}

pub fn whole_grid(s: &Sketch, grid: &[u8]) -> Causes {
    then(with_grid(s, grid), [(14, any_unsound(s, grid))])
}

/// 1 to 6 come from either sketch.
pub fn merge(s: &Sketch, grid: &[u8], other: &Sketch, other_grid: &[u8]) -> Causes {
    let either = with_grid(s, grid).into_iter().zip(with_grid(other, other_grid));
    let either = either.map(|((number, mine), (_, others))| (number, mine || others));
    let shape = |s: &Sketch| (s.rows, s.cols, s.t, s.c);
    let frame = |s: &Sketch| (s.kind, s.length, if s.kind == 1 { s.epoch } else { 0 });
    let apart = n_of(s).zip(n_of(other)).is_some_and(|(mine, others)| mine != others);
    then(
        either.collect(),
        [
            (10, shape(s) != shape(other)),
            (11, frame(s) != frame(other)),
            (12, apart),
            (14, any_unsound(s, grid) || any_unsound(other, other_grid)),
        ],
    )
}

pub fn store_length(s: &Sketch) -> usize {
    let blocks = 1 + grid_bytes(s).div_ceil(CARRIED);
    blocks.saturating_mul(BLOCK)
}

pub fn save(s: &Sketch, grid: &[u8], store: usize) -> Causes {
    then(whole_grid(s, grid), [(16, store != store_length(s))])
}

pub fn draw(state: u64) -> Causes {
    vec![(5, state == 0)]
}

pub fn division(divisor: u64, state: u64) -> Causes {
    then(draw(state), [(15, divisor == 0)])
}

/// A call on one cell that needs no random state.
pub fn one_cell(t: u64, c: u64, cell: &[u8]) -> Causes {
    then(params(t, c), [(6, cell.len() != depth(t)), (14, unsound(t, c, cell))])
}

/// A call that changes one cell.
pub fn change(t: u64, c: u64, state: u64, crossing: Option<(u64, u64)>, cells: &[&[u8]]) -> Causes {
    let few = 1..t.saturating_add(2);
    let too_far = |(new_n, crossed)| few.contains(&crossed) && crossed > new_n;
    then(
        params(t, c),
        [
            (5, state == 0),
            (6, cells.iter().any(|cell| cell.len() != depth(t))),
            (9, crossing.is_some_and(too_far)),
            (14, cells.iter().any(|cell| unsound(t, c, cell))),
        ],
    )
}
