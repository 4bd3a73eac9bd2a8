//! The calls with plain values, good and bad: refused by document 01's number with every word and byte as it was, or
//! accepted and as the Rust has it. The Rust is never handed what ours refuses. What a call tells is compared whole, and
//! before the call junk stands there.

use crate::held::{Held, published};
use crate::hits;
use crate::judge;
use crate::junk;
use crate::layout;
use crate::lost::Units;
use crate::lost_walk;
use crate::named::{self, names};
use crate::numbers;
use crate::pair::narrow;
use crate::score::{Outcome, called, number, same, same_bytes, same_number, unchanged, unchanged_one};
use microscope::Refusal;
use microscope::calls::{self, Change, Sketch, Watch};

/// A call's number and the index beside it, once all else that it told and left was compared.
pub type Told = Result<(u64, u64), String>;

pub type Answer = Result<(), Refusal>;

/// The number is this one, and the refusal names the cell that was told beside it, or none.
pub fn told(what: &str, answer: Answer, right: u64, index: u64) -> Told {
    let number = number(&answer);
    same_number(what, number, right)?;
    let named = answer.err().and_then(|why| why.index());
    same(
        "the cell that the refusal names",
        named,
        (right == 14).then_some(index as usize),
    )?;
    Ok((number, index))
}

/// What was lent to be read only.
pub fn as_lent(lent: &Held, before: &Held) -> Outcome {
    unchanged_one("the sketch lent", &lent.sketch, &before.sketch)?;
    unchanged("the grid lent", &lent.grid, &before.grid)
}

/// A call that may change a sketch: its number, the cell that is named with 14, what else it tells, and what it leaves
/// beside what the Rust leaves.
fn changed(
    before: &Held,
    right: u64,
    cell: impl FnOnce() -> Option<usize>,
    call: impl FnOnce(&mut Sketch, &mut [u8], &mut Change) -> Answer,
    theirs: impl FnOnce(&mut judge::Sketch) -> Units,
) -> Told {
    let mut left = before.clone();
    let mut change = junk::CHANGE;
    let answer = called(call(&mut left.sketch, &mut left.grid, &mut change));
    let told = told("number", answer, right, change.index)?;
    if right != 0 {
        names(right, change.index, cell)?;
        same(
            "the draws and the units lost of a refusal",
            (change.draws, change.lost),
            (0, 0),
        )?;
        same("the sketch of a refusal", left.sketch, before.sketch)?;
        same_bytes("the grid of a refusal", &left.grid, &before.grid)?;
        return Ok(told);
    }
    let mut right = published(before);
    let lost = theirs(&mut right)?;
    let (reading, state) = (judge::clock(&right).reading, judge::state(&right));
    let sketch = Sketch {
        reading,
        state,
        ..before.sketch
    };
    same("sketch", left.sketch, sketch)?;
    let change_told = Change {
        index: 0,
        draws: judge::draws_between(before.sketch.state, state),
        lost,
    };
    same("what is told", change, change_told)?;
    let t = before.sketch.t;
    layout::same_cells("the grid", t, &left.grid, judge::grid(&right))?;
    layout::same_pads(t, &left.grid, &before.grid)?;
    Ok(told)
}

pub fn update(before: &Held, key: &[u32]) -> Told {
    let lent = key.to_vec();
    let right = hits::number("update", &numbers::update(&before.sketch, key, &before.grid));
    let told = changed(
        before,
        right,
        || named::moving(before, key, 0, before.sketch.reading.saturating_add(1)),
        |sketch, grid, change| calls::update(sketch, &lent, grid, change),
        |theirs| lost_walk::update(theirs, &narrow(key)),
    )?;
    unchanged("the key lent", &lent, key)?;
    Ok(told)
}

pub fn update_at(before: &Held, key: &[u32], time: u64) -> Told {
    let lent = key.to_vec();
    let causes = numbers::update_at(&before.sketch, key, time, &before.grid);
    let told = changed(
        before,
        hits::number("update_at", &causes),
        || named::moving(before, key, 1, before.sketch.reading.max(time)),
        |sketch, grid, change| calls::update_at(sketch, &lent, time, grid, change),
        |theirs| lost_walk::update_at(theirs, &narrow(key), time),
    )?;
    unchanged("the key lent", &lent, key)?;
    Ok(told)
}

pub fn advance_to(before: &Held, time: u64) -> Told {
    let right = hits::number("advance_to", &numbers::advance_to(&before.sketch, time, &before.grid));
    changed(
        before,
        right,
        || named::moving(before, &[], 1, before.sketch.reading.max(time)),
        |sketch, grid, change| calls::advance_to(sketch, time, grid, change),
        |theirs| lost_walk::advance_to(theirs, time),
    )
}

pub fn merge(mine: &Held, other: &Held) -> Told {
    let lent = other.clone();
    let causes = numbers::merge(&mine.sketch, &mine.grid, &other.sketch, &other.grid);
    let told = changed(
        mine,
        hits::number("merge", &causes),
        || named::in_merge(mine, other),
        |sketch, grid, change| calls::merge(sketch, grid, &lent.sketch, &lent.grid, change),
        |theirs| lost_walk::merge_sketches(theirs, &published(other)).map(|lost| lost.expect("they meet")),
    )?;
    as_lent(&lent, other)?;
    Ok(told)
}

/// A fresh start with any settings, over a sketch, codes and a grid that were written before.
pub fn start(held: &Held, seed: u64) -> Told {
    let s = held.sketch;
    let mut grid = held.grid.clone();
    let (mut sketch, mut watch) = (junk::SKETCH, junk::WATCH);
    let answer = called(calls::new(
        &mut sketch,
        &mut watch,
        s.rows,
        s.cols,
        s.t,
        s.c,
        s.kind,
        s.length,
        s.epoch,
        seed,
        &mut grid,
    ));
    let right = hits::number("with_dimensions", &numbers::fresh(&s, &held.grid));
    let told = told("the fresh start's number", answer, right, 0)?;
    if right != 0 {
        same("the sketch of a refusal", sketch, junk::SKETCH)?;
        same("the codes of a refusal", watch, junk::WATCH)?;
        same_bytes("the grid of a refusal", &grid, &held.grid)?;
        return Ok(told);
    }
    let epoch = if s.kind == 1 { s.epoch } else { 0 };
    let fresh = Sketch {
        epoch,
        reading: epoch,
        state: judge::seeded(seed),
        ..s
    };
    same("a fresh sketch", sketch, fresh)?;
    same("the codes of a fresh start", watch, Watch::default())?;
    same_bytes("a fresh grid", &grid, &vec![0; grid.len()])?;
    Ok(told)
}
