//! Stores that were cut, mixed, changed or made by another: refused by their number, and nothing written.

use crate::choose::Dice;
use crate::hits;
use crate::junk;
use crate::load_order;
use crate::named::{self, names};
use crate::numbers;
use crate::plain_calls::{self, Told};
use crate::score::{Outcome, called, number, same, same_bytes, same_number, unchanged};
use crate::stores::{self, BLOCK};
use crate::stories;
use microscope::{MicroCm, calls};

/// Changes one byte to another value.
fn change(dice: &mut Dice, store: &mut [u8], from: usize, to: usize) -> usize {
    let at = dice.within(from as u64, to as u64 - 1) as usize;
    store[at] ^= dice.within(1, 255) as u8;
    at
}

/// Changes one byte of the payload of the block and makes its sum right again.
fn change_inside(dice: &mut Dice, store: &mut [u8], block: usize, from: usize, to: usize) {
    let block = &mut store[block * BLOCK..][..BLOCK];
    change(dice, block, 4 + from, 4 + to);
    stores::sum_up(block);
}

/// Two blocks change places, or one stands twice.
fn mix(dice: &mut Dice, store: &mut [u8]) {
    let blocks = (store.len() / BLOCK) as u64;
    let from = dice.below(blocks) as usize;
    let to = dice.below(blocks) as usize;
    let moved = store[from * BLOCK..][..BLOCK].to_vec();
    if dice.chance(50) {
        store.copy_within(to * BLOCK..(to + 1) * BLOCK, from * BLOCK);
    }
    store[to * BLOCK..][..BLOCK].copy_from_slice(&moved);
}

fn harm(dice: &mut Dice, store: &mut Vec<u8>) {
    let blocks = store.len() / BLOCK;
    let last = blocks - 1;
    match dice.below(10) {
        0 => store.truncate(dice.below(store.len() as u64 + 1) as usize),
        1 => store.truncate(dice.below(blocks as u64 + 1) as usize * BLOCK),
        2 => store.extend(stores::block(blocks as u32, &[])),
        3 => store.push(0),
        4 => mix(dice, store),
        5 => change_inside(dice, store, 0, 0, 56),
        6 => change_inside(dice, store, 0, 56, 504),
        7 => change_inside(dice, store, last, 0, 504),
        _ => {
            let end = store.len();
            change(dice, store, 0, end);
        }
    }
}

/// What a store says of its sketch, by the number that blocks, header and length give: all 0 if it is refused.
pub fn shape(store: &[u8]) -> Told {
    let lent = store.to_vec();
    let mut shape = junk::SHAPE;
    let answer = called(calls::store_shape(&lent, &mut shape));
    let right = hits::number("store_shape", &load_order::shape(store));
    let told = plain_calls::told("the shape's number", answer, right, 0)?;
    unchanged("the store lent", &lent, store)?;
    let shape_right = match right {
        0 => load_order::shape_of(store),
        _ => calls::Shape::default(),
    };
    same("the shape", shape, shape_right)?;
    Ok(told)
}

/// A store that was loaded has the shape that it told of.
fn as_told(store: &[u8], ours: &MicroCm) -> Outcome {
    let mut shape = junk::SHAPE;
    same(
        "the shape of what was loaded",
        called(calls::store_shape(store, &mut shape)),
        Ok(()),
    )?;
    let s = ours.plain();
    let words = [shape.rows, shape.cols, shape.t, shape.c, shape.grid_bytes];
    let right = [s.rows, s.cols, s.t, s.c, ours.grid().len() as u64];
    same("rows, cols, t, c and bytes of the grid", words, right)
}

/// A load into a grid of this length, by the number that a load's own order gives. If it is refused, no word of the
/// sketch and the codes and no byte of the grid is written.
pub fn load(store: &[u8], bytes: usize) -> Told {
    shape(store)?;
    let lent = store.to_vec();
    let (mut sketch, mut watch) = (junk::SKETCH, junk::WATCH);
    let (mut grid, mut index) = (vec![junk::BYTE; bytes], junk::WORD);
    let answer = called(calls::load(&mut sketch, &mut watch, &mut grid, &lent, &mut index));
    let right = hits::number("load", &load_order::load(store, Some(bytes)));
    let told = plain_calls::told("the load's number", answer, right, index)?;
    unchanged("the store lent", &lent, store)?;
    names(right, index, || named::in_grid(&load_order::stored(store)))?;
    if right == 0 {
        let ours = called(MicroCm::load(store)).map_err(|why| why.to_string())?;
        same("the sketch loaded", sketch, ours.plain())?;
        same("the codes of a load", watch, calls::Watch::default())?;
        same_bytes("the grid loaded", &grid, ours.grid())?;
        as_told(store, &ours)?;
    } else {
        same("the sketch of a refusal", sketch, junk::SKETCH)?;
        same("the codes of a refusal", watch, junk::WATCH)?;
        same_bytes("the grid of a refusal", &grid, &vec![junk::BYTE; bytes])?;
    }
    Ok(told)
}

/// A store is refused by this number and, but for the grid's length, by the wrapper too.
pub fn refused(store: &[u8], grid: usize, right: u64) -> Outcome {
    let (told, _) = load(store, grid)?;
    same("the load's number", told, right)?;
    let right = numbers::first(&load_order::load(store, None));
    same_number("the wrapper's number", number(&called(MicroCm::load(store))), right)
}

/// A store of this sketch, harmed.
pub fn of_sketch(dice: &mut Dice, ours: &MicroCm) -> Outcome {
    let mut store = called(ours.save()).map_err(|why| why.to_string())?;
    harm(dice, &mut store);
    let wrong = dice.chance(10);
    let grid = if wrong {
        dice.below(100) as usize
    } else {
        ours.grid().len()
    };
    refused(&store, grid, numbers::first(&load_order::load(&store, Some(grid))))
}

/// A single changed byte anywhere is refused, by 17.
fn one_byte(dice: &mut Dice, ours: &MicroCm) -> Outcome {
    let mut store = called(ours.save()).map_err(|why| why.to_string())?;
    let end = store.len();
    change(dice, &mut store, 0, end);
    refused(&store, ours.grid().len(), 17)
}

/// A buffer for saving that is not the exact length is refused by 16 and not written.
fn wrong_room(dice: &mut Dice, ours: &MicroCm) -> Outcome {
    let exact = ours.grid().len().div_ceil(stores::CARRIED) * BLOCK + BLOCK;
    let room = dice.one_of(&[0, 1, exact - 1, exact + 1, exact - BLOCK, exact + BLOCK]);
    let mut store = vec![0x5A; room];
    let answer = called(ours.save_to(&mut store));
    same_number("the save's number", number(&answer), 16)?;
    same_bytes("the buffer", &store, &vec![0x5A; room])
}

pub fn story(dice: &mut Dice) -> Outcome {
    let settings = stories::settings_within(dice, 4_000);
    let grid = stories::grid(dice, &settings);
    let reading = stories::reading(dice, &settings);
    let store = stores::encode(&settings, reading, dice.state(), &grid);
    let ours = called(MicroCm::load(&store)).map_err(|why| why.to_string())?;
    for _ in 0..200 {
        match dice.below(10) {
            0 => wrong_room(dice, &ours)?,
            1..4 => one_byte(dice, &ours)?,
            _ => of_sketch(dice, &ours)?,
        }
    }
    Ok(())
}
