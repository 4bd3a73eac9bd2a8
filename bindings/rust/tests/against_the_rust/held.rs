//! Sketches and grids with plain values, good and bad.

use crate::beside::{shutter_at, zoom_at};
use crate::choose::Dice;
use crate::judge::{self, Settings};
use crate::layout;
use crate::numbers;
use crate::stories;
use microscope::calls::Sketch;

/// A sketch with its grid, as a caller of another make might hand them over.
#[derive(Clone)]
pub struct Held {
    pub sketch: Sketch,
    pub grid: Vec<u8>,
}

pub fn sketch_of(settings: &Settings, reading: u64, state: u64) -> Sketch {
    Sketch {
        rows: settings.rows as u64,
        cols: settings.cols as u64,
        t: settings.t as u64,
        c: settings.c as u64,
        kind: settings.timed as u64,
        length: settings.length,
        epoch: if settings.timed { settings.epoch } else { 0 },
        reading,
        state,
    }
}

/// Makes this cell unsound: a zoom above the largest, or a shutter at c^Z or above.
pub fn spoil_cell(dice: &mut Dice, held: &mut Held, index: usize) {
    let (t, c) = (held.sketch.t, held.sketch.c);
    let cell = &mut held.grid[index * layout::depth(t)..];
    let (zoom, shutter) = (zoom_at(t as usize), shutter_at(t as usize));
    // Of a zoom that is too high already there is no c^Z.
    match numbers::unit(c, cell[zoom]) {
        Some(unit) if dice.chance(50) => {
            let items = dice.one_of(&[unit, u32::MAX as u64]) as u32;
            cell[shutter].copy_from_slice(&items.to_le_bytes());
        }
        _ => cell[zoom] = dice.one_of(&[judge::max_zoom(c as u16) + 1, 255]),
    }
}

/// Above all that fits 32 bits: a setting of this and some more is not to be taken for the rest.
pub const WIDE: u64 = 1 << 32;

fn spoil_setting(dice: &mut Dice, s: &mut Sketch) {
    match dice.below(9) {
        0 => s.t = dice.one_of(&[0, 4097, 65_537, u64::MAX, WIDE, WIDE + 1]),
        1 => s.c = dice.one_of(&[0, 1, 257, u32::MAX as u64, WIDE, WIDE + 2, WIDE + 256, u64::MAX]),
        2 => s.kind = dice.one_of(&[2, 3, 256, u32::MAX as u64, WIDE, WIDE + 1, u64::MAX]),
        3 => s.length = dice.one_of(&[0, (1 << 53) + 1, u64::MAX]),
        4 => s.rows = dice.one_of(&[0, 129, u64::MAX, WIDE, WIDE + 1, 1 << 63]),
        5 => s.cols = dice.one_of(&[0, 1, 3, 6, 131_072, 1 << 63, WIDE, WIDE + 2, u64::MAX]),
        6 => s.state = 0,
        7 => s.rows = dice.within(1, 130),
        _ => s.cols = 1 << dice.within(1, 17),
    }
}

fn spoil_length(dice: &mut Dice, grid: &mut Vec<u8>) {
    match dice.below(3) {
        0 => grid.push(0),
        1 => drop(grid.pop()),
        _ => grid.clear(),
    }
}

pub fn held(dice: &mut Dice) -> Held {
    let settings = stories::settings_within(dice, 2_000);
    let grid = stories::grid(dice, &settings);
    let reading = stories::reading(dice, &settings);
    Held {
        sketch: sketch_of(&settings, reading, dice.state()),
        grid,
    }
}

/// Mostly one thing wrong; sometimes none, sometimes more.
pub fn spoil(dice: &mut Dice, held: &mut Held) {
    if dice.chance(20) {
        let cells = held.grid.len() / layout::depth(held.sketch.t);
        let index = dice.below(cells as u64) as usize;
        spoil_cell(dice, held, index);
    }
    if dice.chance(15) {
        spoil_length(dice, &mut held.grid);
    }
    while dice.chance(25) {
        spoil_setting(dice, &mut held.sketch);
    }
    // A clock that counts has no epoch, so any is as good as 0.
    if held.sketch.kind == 0 && dice.chance(20) {
        held.sketch.epoch = dice.any();
    }
}

/// The settings of a sketch that ours accepts.
pub fn settings_of(s: &Sketch) -> Settings {
    Settings {
        rows: s.rows as u16,
        cols: s.cols as u32,
        t: s.t as u16,
        c: s.c as u16,
        timed: s.kind == 1,
        length: s.length,
        epoch: s.epoch,
        seed: 1,
    }
}

/// The Rust's own sketch of values that ours accepts.
pub fn published(held: &Held) -> judge::Sketch {
    let s = &held.sketch;
    let mut theirs = settings_of(s).make();
    judge::set(&mut theirs, s.reading, s.state);
    judge::set_grid(&mut theirs, &layout::to_theirs(s.t, &held.grid));
    theirs
}
