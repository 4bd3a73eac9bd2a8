//! The calls with plain values that leave a sketch as it is, beside the Rust's figures and document 01's table.

use crate::held::{Held, published};
use crate::hits;
use crate::judge;
use crate::junk;
use crate::load_order;
use crate::means;
use crate::named::{self, names};
use crate::numbers;
use crate::pair::narrow;
use crate::plain_calls::{Answer, Told, as_lent, told};
use crate::score::{called, same, same_bytes, unchanged, unchanged_one};
use microscope::calls::{self, Figures, Found, Items, Value};

/// A reading beside its number and, if it was accepted, the Rust's figures.
fn read(
    held: &Held,
    key: &[u32],
    right: u64,
    call: impl FnOnce(&Held, &[u32], &mut Figures, &mut Items) -> Answer,
    theirs: impl FnOnce(&judge::Sketch) -> judge::Figures,
) -> Told {
    let (lent, lent_key) = (held.clone(), key.to_vec());
    let (mut figures, mut items) = (junk::FIGURES, junk::ITEMS);
    let answer = called(call(&lent, &lent_key, &mut figures, &mut items));
    let told = told("the reading's number", answer, right, items.index)?;
    names(right, items.index, || named::of_key(held, key))?;
    let figures_right = if right == 0 { theirs(&published(held)) } else { [0; 4] };
    let [over, under, ..] = figures_right.map(f64::from_bits);
    let Figures {
        over: o,
        under: u,
        linear,
        fraction,
    } = figures;
    same("figures", [o, u, linear, fraction].map(f64::to_bits), figures_right)?;
    let items_right = Items {
        over: over as u64,
        under: under as u64,
        index: items.index,
    };
    same("figures in items", items, items_right)?;
    as_lent(&lent, held)?;
    unchanged("the key lent", &lent_key, key)?;
    Ok(told)
}

pub fn estimate(held: &Held, key: &[u32]) -> Told {
    let right = hits::number("estimate", &numbers::read(&held.sketch, key, &held.grid));
    read(
        held,
        key,
        right,
        |lent, key, figures, items| calls::estimate(&lent.sketch, key, &lent.grid, figures, items),
        |theirs| judge::read(theirs, &narrow(key)),
    )
}

pub fn estimate_with(held: &Held, key: &[u32], fraction: f64) -> Told {
    let causes = numbers::read_with(&held.sketch, key, fraction, &held.grid);
    read(
        held,
        key,
        hits::number("estimate_with", &causes),
        |lent, key, figures, items| calls::estimate_with(&lent.sketch, key, fraction, &lent.grid, figures, items),
        |theirs| judge::read_with(theirs, &narrow(key), fraction.to_bits()).expect("a fraction"),
    )
}

/// A whole number beside the right one, 0 if refused; and the cell that is named with 14.
fn valued(
    held: &Held,
    right: u64,
    cell: impl FnOnce() -> Option<usize>,
    call: impl FnOnce(&Held, &mut Value) -> Answer,
    theirs: impl FnOnce(&judge::Sketch) -> u64,
) -> Told {
    let lent = held.clone();
    let mut value = junk::VALUE;
    let answer = called(call(&lent, &mut value));
    let told = told("the value's number", answer, right, value.index)?;
    names(right, value.index, cell)?;
    let value_right = if right == 0 { theirs(&published(held)) } else { 0 };
    same("value", value.value, value_right)?;
    as_lent(&lent, held)?;
    Ok(told)
}

pub fn mean(held: &Held, key: &[u32]) -> Told {
    let lent_key = key.to_vec();
    let right = hits::number("mean", &numbers::read(&held.sketch, key, &held.grid));
    let told = valued(
        held,
        right,
        || named::of_key(held, key),
        |lent, mean| calls::mean(&lent.sketch, &lent_key, &lent.grid, mean),
        |theirs| means::reckoned(judge::read(theirs, &narrow(key)), theirs.sub_window(), held.sketch.t),
    )?;
    unchanged("the key lent", &lent_key, key)?;
    Ok(told)
}

pub fn max_zoom(held: &Held) -> Told {
    let right = hits::number("max_zoom", &numbers::whole_grid(&held.sketch, &held.grid));
    valued(
        held,
        right,
        || named::in_grid(held),
        |lent, zoom| calls::max_zoom(&lent.sketch, &lent.grid, zoom),
        |theirs| theirs.max_zoom() as u64,
    )
}

/// The index told is 1 + that of the smallest unsound cell, 0 if there is none.
pub fn audit(held: &Held) -> Told {
    let lent = held.clone();
    let mut found = junk::FOUND;
    let answer = called(calls::audit(&lent.sketch, &lent.grid, &mut found));
    let right = hits::number("audit", &numbers::with_grid(&held.sketch, &held.grid));
    let (number, _) = told("the audit's number", answer, right, 0)?;
    let first = if right == 0 { named::in_grid(held) } else { None };
    let found_right = Found {
        index: first.unwrap_or(0) as u64,
        unsound: first.is_some() as u64,
    };
    same("the audit's finding", found, found_right)?;
    as_lent(&lent, held)?;
    Ok((number, found.index + found.unsound))
}

pub fn bucket_check(held: &Held, row: u64, col: u64) -> Told {
    let lent = held.clone();
    let answer = called(calls::bucket_check(&lent.sketch, row, col, &lent.grid));
    let right = hits::number("bucket_check", &numbers::bucket(&held.sketch, row, col, &held.grid));
    as_lent(&lent, held)?;
    told("the cell's number", answer, right, 0)
}

pub fn store_length(held: &Held) -> Told {
    let sketch = held.sketch;
    let mut length = junk::WORD;
    let answer = called(calls::store_length(&sketch, &mut length));
    let right = hits::number("store_length", &numbers::sketch(&held.sketch));
    let length_right = if right == 0 {
        numbers::store_length(&held.sketch)
    } else {
        0
    };
    same("length of a store", length, length_right as u64)?;
    unchanged_one("the sketch lent", &sketch, &held.sketch)?;
    told("the length's number", answer, right, 0)
}

/// Saves into a buffer of this length.
pub fn save(held: &Held, room: usize) -> Told {
    let lent = held.clone();
    let mut store = vec![junk::BYTE; room];
    let mut index = junk::WORD;
    let answer = called(calls::save(&lent.sketch, &lent.grid, &mut store, &mut index));
    let right = hits::number("save", &numbers::save(&held.sketch, &held.grid, room));
    names(right, index, || named::in_grid(held))?;
    as_lent(&lent, held)?;
    if right == 0 {
        let causes = load_order::load(&store, Some(held.grid.len()));
        same("a store of ours", numbers::first(&causes), 0)?;
    } else {
        same_bytes("the buffer of a refusal", &store, &vec![junk::BYTE; room])?;
    }
    told("the save's number", answer, right, index)
}
