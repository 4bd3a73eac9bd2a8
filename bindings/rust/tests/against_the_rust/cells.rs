//! The calls on one cell beside the Rust's, and with cells and numbers that are to be refused.

use crate::beside::{shutter_at, zoom_at};
use crate::choose::Dice;
use crate::held::WIDE;
use crate::judge;
use crate::junk;
use crate::layout;
use crate::levels::Crossing;
use crate::lost::{self, Units};
use crate::numbers::{self, Causes};
use crate::plain_calls::{Answer, told as answered};
use crate::score::{Outcome, called, same, same_bytes, unchanged};
use microscope::calls::{self, Change};

/// What a call on one cell is told.
pub struct Told {
    pub t: u64,
    pub c: u64,
    pub cell: Vec<u8>,
    pub state: u64,
}

fn cell(dice: &mut Dice, t: u16, c: u16) -> Vec<u8> {
    layout::from_theirs(t, dice.cell(t, c))
}

impl Told {
    fn new(dice: &mut Dice) -> Self {
        let (t, c) = (dice.sub_windows(), dice.base());
        Self {
            t: t as u64,
            c: c as u64,
            cell: cell(dice, t, c),
            state: dice.state(),
        }
    }

    fn small(&self) -> (u16, u16) {
        (self.t as u16, self.c as u16)
    }

    fn theirs(&self) -> Vec<u8> {
        layout::to_theirs(self.t, &self.cell)
    }
}

fn spoil_cell(dice: &mut Dice, t: u64, cell: &mut Vec<u8>) {
    let t = t as usize;
    match dice.below(4) {
        0 => cell.push(0),
        1 => drop(cell.pop()),
        2 => cell[zoom_at(t)] = dice.one_of(&[32, 255]),
        _ => cell[shutter_at(t)].fill(255),
    }
}

fn spoil(dice: &mut Dice, told: &mut Told) {
    match dice.below(4) {
        0 => told.t = dice.one_of(&[0, 4097, WIDE + 1, u64::MAX, u64::MAX - 6]),
        1 => told.c = dice.one_of(&[0, 1, 257, u32::MAX as u64, WIDE, WIDE + 2, u64::MAX]),
        2 => told.state = 0,
        _ => spoil_cell(dice, told.t, &mut told.cell),
    }
}

/// A cell after a call: as the Rust left it, with its own pads, or if refused as it was, and so the state. Gives the units lost.
fn left(
    told: &Told,
    causes: Causes,
    call: impl FnOnce(&mut [u8], &mut u64, &mut Change) -> Answer,
    theirs: impl FnOnce(u16, u16) -> lost::Left,
) -> Units {
    let (mut bytes, mut state, mut change) = (told.cell.clone(), told.state, junk::CHANGE);
    let answer = called(call(&mut bytes, &mut state, &mut change));
    let right = numbers::first(&causes);
    answered("number", answer, right, 0)?;
    if right != 0 {
        same("what a refusal tells", change, Change::default())?;
        same("the state of a refusal", state, told.state)?;
        same_bytes("the cell of a refusal", &bytes, &told.cell)?;
        return Ok(0);
    }
    let (t, c) = told.small();
    let (after, lost) = theirs(t, c)?;
    let change_right = Change {
        index: 0,
        draws: after.draws,
        lost,
    };
    same("state and what is told", (state, change), (after.state, change_right))?;
    layout::same_cells("the cell", told.t, &bytes, &after.cell)?;
    layout::same_pads(told.t, &bytes, &told.cell)?;
    Ok(change.lost)
}

pub fn insert(told: &Told, n: u64) -> Units {
    let causes = numbers::change(told.t, told.c, told.state, None, &[&told.cell]);
    left(
        told,
        causes,
        |cell, state, change| calls::cell_insert(cell, told.t, told.c, n, state, change),
        |t, c| lost::insert(t, c, n, told.state, &told.theirs()),
    )
}

fn crossed(dice: &mut Dice, told: &Told, n: u64) -> u64 {
    match dice.below(4) {
        0 => dice.any_size(),
        1 => n,
        _ => dice.below(told.t.min(4096) + 4),
    }
}

pub fn enter(told: &Told, n: u64, crossed: u64) -> Units {
    let causes = numbers::change(told.t, told.c, told.state, Some((n, crossed)), &[&told.cell]);
    let accepted = numbers::first(&causes) == 0;
    let lost = left(
        told,
        causes,
        |cell, state, change| calls::cell_enter_sub_window(cell, told.t, told.c, n, crossed, state, change),
        |t, c| lost::enter(t, c, n, crossed, told.state, &told.theirs()),
    )?;
    if !accepted {
        return Ok(lost);
    }
    let (t, c) = told.small();
    let (state, theirs) = (told.state, told.theirs());
    let crossing = Crossing {
        t,
        c,
        n,
        crossed,
        state,
    };
    crossing.kept(&theirs, &judge::enter(t, c, n, crossed, state, &theirs))?;
    Ok(lost)
}

/// Document 02, T-11, worked by hand: three pixels, zoom and shutter; n and how many are crossed; and what is left.
fn worked(c: u16, before: ([u8; 3], u8, u32), n: u64, by: u64, after: ([u8; 3], u8, u32)) -> Outcome {
    let bytes = |(pixels, zoom, shutter): ([u8; 3], u8, u32)| judge::cell(1, c, &pixels, zoom, shutter, 0);
    let told = Told {
        t: 1,
        c: c as u64,
        cell: layout::from_theirs(1, bytes(before)),
        state: 2,
    };
    enter(&told, n, by)?;
    let left = judge::enter(1, c, n, by, told.state, &told.theirs());
    same_bytes("the cell worked by hand", &left.cell, &bytes(after))
}

pub const ALL: [(&str, fn() -> Outcome); 2] = [
    ("how far a crossing zooms in", crossings),
    ("every base up to its ceiling and above", ceilings),
];

fn crossings() -> Outcome {
    worked(2, ([127, 0, 0], 1, 0), 1, 1, ([254, 0, 0], 0, 0))?;
    worked(2, ([128, 0, 0], 1, 0), 1, 1, ([128, 0, 0], 1, 0))?;
    worked(3, ([85, 0, 0], 1, 0), 1, 1, ([255, 0, 0], 0, 0))?;
    worked(2, ([31, 9, 5], 7, 0), 1, 1, ([248, 0, 40], 4, 0))?;
    worked(2, ([1, 0, 0], 1, 0), 1, 1, ([2, 0, 0], 0, 0))?;
    worked(2, ([200, 0, 0], 1, 0), 2, 2, ([200, 0, 0], 1, 0))?;
    worked(2, ([1, 9, 200], 1, 0), 4, 1, ([1, 0, 200], 1, 0))?;
    worked(2, ([0, 200, 0], 1, 0), 1, 1, ([0, 0, 0], 0, 0))?;
    worked(2, ([255, 0, 0], 1, 1), 1, 1, ([128, 0, 0], 2, 0))?;
    worked(2, ([255, 255, 255], 31, 7), 3, 3, ([0, 0, 0], 0, 0))?;
    worked(2, ([1, 0, 0], 1, 1), 1, 0, ([1, 0, 0], 1, 1))
}

/// Document 02, T-03: a full pixel that is to have one more, at every base and zoom.
fn ceilings() -> Outcome {
    for c in 2..=256 {
        for zoom in 0..=judge::max_zoom(c) + 1 {
            let one_short = (judge::unit(c, zoom) - 1) as u32;
            let full = layout::from_theirs(1, judge::cell(1, c, &[255, 1, 1], zoom, one_short, 0));
            let told = Told {
                t: 1,
                c: c as u64,
                cell: full.clone(),
                state: 2,
            };
            settings(&told)?;
            insert(&told, 0)?;
            enter(&told, 1, 1)?;
            merge(&told, 0, full)?;
        }
    }
    Ok(())
}

pub fn merge(told: &Told, n: u64, src: Vec<u8>) -> Units {
    let lent = src.clone();
    let causes = numbers::change(told.t, told.c, told.state, None, &[&told.cell, &src]);
    let lost = left(
        told,
        causes,
        |dst, state, change| calls::cell_merge(dst, &lent, told.t, told.c, n, state, change),
        |t, c| lost::merge(t, c, n, told.state, &told.theirs(), &layout::to_theirs(told.t, &src)),
    )?;
    unchanged("the cell merged from", &lent, &src)?;
    Ok(lost)
}

fn spoiled_at_times(dice: &mut Dice, told: &Told, mut src: Vec<u8>) -> Vec<u8> {
    if dice.chance(10) && told.t <= 4096 && src.len() >= shutter_at(told.t as usize).end {
        spoil_cell(dice, told.t, &mut src);
    }
    src
}

fn fields(told: &Told, n: u64) -> Outcome {
    let (t, c, cell) = (told.t, told.c, told.cell.clone());
    let right = numbers::first(&numbers::one_cell(t, c, &told.cell));
    let (mut zoom, mut shutter, mut pixel) = (junk::WORD, junk::WORD, junk::FIGURE);
    for answer in [
        called(calls::cell_zoom(&cell, t, c, &mut zoom)),
        called(calls::cell_shutter(&cell, t, c, &mut shutter)),
        called(calls::cell_scaled_pixel(&cell, t, c, n, &mut pixel)),
        called(calls::cell_check(&cell, t, c)),
    ] {
        answered("the cell's number", answer, right, 0)?;
    }
    unchanged("the cell lent", &cell, &told.cell)?;
    let values = (zoom, shutter, pixel.to_bits());
    if right != 0 {
        return same("refused values", values, (0, 0, 0));
    }
    let (small_t, small_c) = told.small();
    let (z, s, items) = judge::fields(small_t, small_c, n, &told.theirs());
    same("zoom, shutter and pixel", values, (z as u64, s as u64, items))
}

fn settings(told: &Told) -> Outcome {
    let mut depth = junk::WORD;
    let answer = called(calls::depth(told.t, told.c, &mut depth));
    let right = numbers::first(&numbers::params(told.t, told.c));
    answered("the depth's number", answer, right, 0)?;
    let bytes = if right == 0 { layout::right_depth(told.t) } else { 0 };
    same("depth", depth, bytes as u64)?;
    let mut zoom = junk::WORD;
    let answer = called(calls::base_max_zoom(told.c, &mut zoom));
    let known = (2..=256).contains(&told.c);
    answered("the largest zoom's number", answer, if known { 0 } else { 2 }, 0)?;
    let largest = if known { judge::max_zoom(told.c as u16) } else { 0 };
    same("largest zoom", zoom, largest as u64)
}

pub fn story(dice: &mut Dice) -> Outcome {
    for _ in 0..300 {
        let mut told = Told::new(dice);
        let (t, c) = told.small();
        let src = cell(dice, t, c);
        let n = dice.sub_window(t);
        if dice.chance(15) {
            spoil(dice, &mut told);
        }
        let outcome = match dice.below(10) {
            0..4 => insert(&told, n).map(drop),
            4..7 => enter(&told, n, crossed(dice, &told, n)).map(drop),
            7 | 8 => merge(&told, n, spoiled_at_times(dice, &told, src)).map(drop),
            _ => fields(&told, n).and_then(|()| settings(&told)),
        };
        outcome.map_err(|what| format!("{what}; t {}, c {}, n {n}, cell {:?}", told.t, told.c, told.cell))?;
    }
    Ok(())
}
