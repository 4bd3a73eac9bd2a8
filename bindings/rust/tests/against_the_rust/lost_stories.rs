//! Cells at their ceiling and one level below it, at every base, and sketches of such cells by chance: where units are lost.

use crate::beside::shutter_at;
use crate::cells::{self, Told};
use crate::choose::Dice;
use crate::held::{Held, sketch_of};
use crate::judge::{self, Settings};
use crate::layout;
use crate::pair::Pair;
use crate::plain_calls;
use crate::score::Outcome;

pub const ALL: [(&str, fn() -> Outcome); 1] = [("units lost at every base", every_base)];

/// Three pixels at the ceiling and one level below, with shutters that are full, half full and all but empty.
fn every_base() -> Outcome {
    for c in 2..=256 {
        for zoom in [judge::max_zoom(c), judge::max_zoom(c) - 1] {
            let unit = judge::unit(c, zoom) as u32;
            for shutter in [unit - 1, unit / 2, 1] {
                let bytes = |pixels: [u8; 3]| layout::from_theirs(1, judge::cell(1, c, &pixels, zoom, shutter, 0));
                for pixels in [[255, 1, 1], [254, 255, 1], [255, 255, 0]] {
                    let told = Told {
                        t: 1,
                        c: c as u64,
                        cell: bytes(pixels),
                        state: 2 + shutter as u64,
                    };
                    cells::insert(&told, 0)?;
                    cells::enter(&told, 1, 1)?;
                    cells::merge(&told, 0, bytes([2, 200, 255]))?;
                }
            }
        }
    }
    Ok(())
}

fn slot(t: u16, n: u64) -> usize {
    (n % (t as u64 + 2)) as usize
}

/// The shutter lacks one item of a unit.
fn fill_shutter(cell: &mut [u8], t: u16, c: u16, zoom: u8) {
    let items = judge::unit(c, zoom) as u32 - 1;
    cell[shutter_at(t as usize)].copy_from_slice(&items.to_le_bytes());
}

/// The same, and the pixel of n is full.
fn fill(cell: &mut [u8], t: u16, c: u16, zoom: u8, n: u64) {
    cell[slot(t, n)] = 255;
    fill_shutter(cell, t, c, zoom);
}

/// A cell that loses a unit at n, or is close to that.
fn close_to_loss(dice: &mut Dice, t: u16, c: u16, n: u64) -> Vec<u8> {
    let top = judge::max_zoom(c);
    let zoom = match dice.below(10) {
        0..6 => top,
        6 | 7 => top - 1,
        _ => dice.zoom_for(c),
    };
    let mut cell = dice.cell_at_zoom(t, c, zoom);
    match dice.below(10) {
        0..5 => fill(&mut cell, t, c, zoom, n),
        5..7 => cell[slot(t, n)] = dice.one_of(&[254, 255]),
        7 => fill_shutter(&mut cell, t, c, zoom),
        _ => {}
    }
    layout::from_theirs(t, cell)
}

fn cells_by_chance(dice: &mut Dice) -> Outcome {
    for c in 2..=256 {
        let t = dice.sub_windows();
        let n = dice.sub_window(t);
        let told = Told {
            t: t as u64,
            c: c as u64,
            cell: close_to_loss(dice, t, c, n),
            state: dice.state(),
        };
        let outcome = match dice.below(3) {
            0 => cells::insert(&told, n),
            // From n on, which is so the sub-window that ends.
            1 => {
                let crossed = dice.below(t as u64 + 3);
                cells::enter(&told, n.saturating_add(crossed), crossed)
            }
            _ => cells::merge(&told, n, close_to_loss(dice, t, c, n)),
        };
        outcome.map_err(|what| format!("{what}; t {t}, c {c}, n {n}, cell {:?}", told.cell))?;
    }
    Ok(())
}

/// One level below the ceiling of base 2, a sum of 511 rises to it as 255 or as 256, which is cut.
fn rising(dice: &mut Dice) -> Outcome {
    for _ in 0..20 {
        let (t, c, zoom) = (dice.sub_windows(), 2, judge::max_zoom(2) - 1);
        let n = dice.sub_window(t);
        let mut full = || {
            let mut cell = dice.cell_at_zoom(t, c, zoom);
            fill(&mut cell, t, c, zoom, n);
            layout::from_theirs(t, cell)
        };
        let (cell, src) = (full(), full());
        let told = Told {
            t: t as u64,
            c: c as u64,
            cell,
            state: dice.state(),
        };
        cells::merge(&told, n, src).map_err(|what| format!("{what}; t {t}, n {n}, cell {:?}", told.cell))?;
    }
    Ok(())
}

fn settings(dice: &mut Dice) -> Settings {
    Settings {
        rows: dice.within(1, 4) as u16,
        cols: dice.one_of(&[2, 4]),
        t: dice.sub_windows(),
        c: if dice.chance(50) {
            dice.base()
        } else {
            dice.within(2, 256) as u16
        },
        timed: dice.chance(50),
        length: dice.one_of(&[1, 2, 3, 100]),
        epoch: dice.below(100),
        seed: dice.any(),
    }
}

/// A sketch whose cells are close to a loss, at this reading, with plain values and with the wrapper.
fn close(dice: &mut Dice, settings: Settings, reading: u64) -> Result<(Held, Pair), String> {
    let state = dice.state();
    let sketch = sketch_of(&settings, reading, state);
    let n = reading.saturating_sub(sketch.epoch) / settings.length;
    let cells = settings.rows as usize * settings.cols as usize;
    let cell = |_| close_to_loss(dice, settings.t, settings.c, n);
    let grid: Vec<u8> = (0..cells).flat_map(cell).collect();
    let pair = Pair::loaded(settings, reading, state, &grid)?;
    Ok((Held { sketch, grid }, pair))
}

/// One call on a sketch of its own, with plain values and with the wrapper, which then goes on.
fn sketch_by_chance(dice: &mut Dice, settings: Settings) -> Outcome {
    let Settings { rows, cols, t, .. } = settings;
    let start = if settings.timed { settings.epoch } else { 0 };
    let reading = start + dice.below(settings.length * (t as u64 + 3));
    let (held, mut pair) = close(dice, settings, reading)?;
    let key: Vec<u32> = (0..rows).map(|_| dice.below(cols as u64) as u32).collect();
    let later = dice.one_of(&[0, 0, 1, 1, 2, t as u64 + 1, t as u64 + 2]);
    let time = reading + later * settings.length;
    match (dice.below(3), settings.timed) {
        (0, _) => {
            let (other, others) = close(dice, settings, reading)?;
            plain_calls::merge(&held, &other)?;
            pair.merge(&others)?;
        }
        (1, true) => {
            plain_calls::advance_to(&held, time)?;
            pair.advance_to(time)?;
        }
        (_, true) => {
            plain_calls::update_at(&held, &key, time)?;
            pair.update_at(&key, time)?;
        }
        (_, false) => {
            plain_calls::update(&held, &key)?;
            pair.update(&key)?;
        }
    }
    for _ in 0..3 {
        if settings.timed {
            pair.update_at(&key, time)?;
        } else {
            pair.update(&key)?;
        }
    }
    pair.agree_wholly()
}

pub fn story(dice: &mut Dice) -> Outcome {
    if dice.chance(50) {
        rising(dice)?;
        return cells_by_chance(dice);
    }
    for _ in 0..40 {
        let settings = settings(dice);
        sketch_by_chance(dice, settings).map_err(|what| format!("{what}; {settings:?}"))?;
    }
    Ok(())
}
