//! Watched codes with plain values chosen at random: counts above 64, codes of other rows, columns out of range, short
//! lists, unsound cells in several codes, flags as no asking left them.

use crate::choose::Dice;
use crate::code_calls::{self, Kept};
use crate::code_lists::{how_many, key, limit, new_list, room};
use crate::codes::{self, MOST};
use crate::held::{self, Held, WIDE, held, published};
use crate::judge;
use crate::layout;
use crate::numbers;
use crate::plain_calls::Told;
use crate::score::Outcome;
use microscope::calls::Sketch;

/// Codes that go with a sketch, in arrays where nothing else does; flags as handed in.
fn kept(dice: &mut Dice, held: &Held) -> Kept {
    let (rows, cols) = (held.sketch.rows as usize, held.sketch.cols as usize);
    let theirs = published(held);
    let mut kept = Kept::none();
    kept.columns.fill_with(|| dice.any() as u32);
    kept.limits.fill_with(|| dice.any_size());
    let count = how_many(dice);
    kept.watch.count = count as u64;
    kept.watch.rows = rows as u64;
    kept.watch.reached = match dice.below(4) {
        0 => 0,
        1 => u64::MAX,
        _ => dice.any(),
    };
    for code in 0..count {
        let columns = key(dice, rows, cols);
        kept.limits[code] = limit(dice, codes::over(&theirs, &columns));
        kept.columns[code * rows..][..rows].copy_from_slice(&columns);
    }
    kept
}

/// A count that no setting leaves; mostly with columns that the sketch has in all of the first 64.
fn spoil_count(dice: &mut Dice, kept: &mut Kept, s: &Sketch) {
    kept.watch.count = dice.one_of(&[65, 66, 128, 256, WIDE, WIDE + 1, 1 << 63, u64::MAX]);
    if dice.chance(75) {
        kept.columns[..MOST * s.rows as usize].fill_with(|| dice.below(s.cols) as u32);
    }
}

/// A column out of range: one of the codes', or the first behind them, at which nobody looks.
fn spoil_column(dice: &mut Dice, kept: &mut Kept, s: &Sketch) {
    let end = kept.watch.count.min(MOST as u64) * s.rows;
    let at = dice.below(end + 1) as usize;
    if let Some(column) = kept.columns.get_mut(at) {
        *column = dice.one_of(&[s.cols as u32, s.cols as u32 + 1, 65_536, u32::MAX]);
    }
}

fn spoil_kept(dice: &mut Dice, kept: &mut Kept, s: &Sketch) {
    if dice.chance(10) {
        spoil_count(dice, kept, s);
    }
    if dice.chance(10) {
        kept.watch.rows = dice.one_of(&[0, 1, s.rows + 1, s.rows - 1, 128, WIDE + s.rows, u64::MAX]);
    }
    if dice.chance(10) {
        spoil_column(dice, kept, s);
    }
}

/// Makes some cells of some codes unsound, where the grid still has them.
fn spoil_cells(dice: &mut Dice, held: &mut Held, kept: &Kept, s: &Sketch) {
    for _ in 0..dice.within(1, 4) {
        let row = dice.below(s.rows);
        let column = kept.columns[(dice.below(8) * s.rows + row) as usize] as u64;
        let zoom = layout::zoom_of(s.t, numbers::cell_at(s, row, column % s.cols));
        if let Some(byte) = held.grid.get_mut(zoom) {
            *byte = dice.one_of(&[judge::max_zoom(s.c as u16) + 1, 255]);
        }
    }
}

fn one_setting(dice: &mut Dice, mut held: Held, kept: &Kept) -> Told {
    let s = held.sketch;
    let theirs = published(&held);
    let (columns, limits) = new_list(dice, s.rows as usize, s.cols as usize, |key| codes::over(&theirs, key));
    if dice.chance(30) {
        held::spoil(dice, &mut held);
    }
    code_calls::set_codes(&held, kept, &columns, &limits)
}

fn one_asking(dice: &mut Dice, mut held: Held, kept: &Kept) -> Told {
    let s = held.sketch;
    if dice.chance(20) {
        held::spoil(dice, &mut held);
    }
    if dice.chance(10) {
        spoil_cells(dice, &mut held, kept, &s);
    }
    let list = room(dice, kept.watch.count);
    code_calls::ask(&held, kept, &list)
}

pub fn story(dice: &mut Dice) -> Outcome {
    let whole = held(dice);
    for _ in 0..30 {
        let mut kept = kept(dice, &whole);
        spoil_kept(dice, &mut kept, &whole.sketch);
        one_setting(dice, whole.clone(), &kept)
            .and_then(|_| one_asking(dice, whole.clone(), &kept))
            .and_then(|_| one_asking(dice, whole.clone(), &kept))
            .map_err(|what| format!("{what}; {:?}, {:?}", whole.sketch, kept.watch))?;
    }
    Ok(())
}
