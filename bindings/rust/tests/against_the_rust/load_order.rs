//! A load's own order of numbers.

use crate::held::Held;
use crate::numbers::{self, Causes, any_unsound, grid_bytes, store_length, then};
use crate::stores::{BLOCK, sum_of};
use microscope::calls::{Shape, Sketch};

/// The sketch that block 0 tells of.
fn told(header: &[u8]) -> Sketch {
    let u32_at = |at: usize| u32::from_le_bytes(header[4 + at..][..4].try_into().expect("four bytes"));
    let u64_at = |at: usize| u64::from_le_bytes(header[4 + at..][..8].try_into().expect("eight bytes"));
    Sketch {
        rows: u32_at(4) as u64,
        cols: u32_at(8) as u64,
        t: u32_at(12) as u64,
        c: u32_at(16) as u64,
        kind: u32_at(20) as u64,
        length: u64_at(24),
        epoch: u64_at(32),
        reading: u64_at(40),
        state: u64_at(48),
    }
}

/// The blocks that are there whole.
fn blocks(store: &[u8]) -> impl Iterator<Item = &[u8]> {
    store.chunks_exact(BLOCK)
}

fn passes(block: &[u8], number: u32) -> bool {
    block[..4] == number.to_le_bytes() && block[508..] == sum_of(block).to_le_bytes()
}

fn is_form(header: &[u8]) -> bool {
    let s = told(header);
    header[4..8] == 1u32.to_le_bytes()
        && s.kind <= 1
        && (s.kind == 1 || s.epoch == 0)
        && header[60..508].iter().all(|&b| b == 0)
}

/// The order of a call that asks for the shape, and a load's as far as that goes. Without a whole block 0 there is no more
/// to it than 16.
pub fn shape(store: &[u8]) -> Causes {
    let uneven = (16, store.is_empty() || store.len() % BLOCK != 0);
    let Some(header) = blocks(store).next() else {
        return vec![uneven];
    };
    let broken = blocks(store).zip(0..).any(|(block, number)| !passes(block, number));
    let s = told(header);
    let mut causes = vec![uneven, (17, broken), (18, !is_form(header))];
    // An unknown kind of clock is 18 in a store, and not 3.
    causes.extend(numbers::sketch(&Sketch {
        kind: s.kind.min(1),
        ..s
    }));
    then(causes, [(16, store.len() != store_length(&s))])
}

/// The shape that a store tells of whose order is passed.
pub fn shape_of(store: &[u8]) -> Shape {
    let s = told(store);
    Shape {
        rows: s.rows,
        cols: s.cols,
        t: s.t,
        c: s.c,
        grid_bytes: grid_bytes(&s) as u64,
    }
}

/// A load's own order. A grid of no given length is of the right one.
pub fn load(store: &[u8], grid: Option<usize>) -> Causes {
    let causes = shape(store);
    let Some(header) = blocks(store).next() else {
        return causes;
    };
    let s = told(header);
    let (bytes, carried) = (grid_bytes(&s), carried(store));
    let (cells, fill) = carried.split_at(bytes.min(carried.len()));
    then(
        causes,
        [
            (18, fill.iter().any(|&b| b != 0)),
            (6, grid.is_some_and(|lent| lent != bytes)),
            (14, any_unsound(&s, cells)),
        ],
    )
}

/// What the blocks behind the first carry: the grid, and what fills up the last.
fn carried(store: &[u8]) -> Vec<u8> {
    blocks(store)
        .skip(1)
        .flat_map(|block| &block[4..508])
        .copied()
        .collect()
}

/// The sketch and the grid in a store with a whole block 0.
pub fn stored(store: &[u8]) -> Held {
    Held {
        sketch: told(store),
        grid: carried(store),
    }
}
