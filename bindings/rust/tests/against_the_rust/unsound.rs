//! Grids with several unsound cells, handed to every call that judges cells; and document 02's T-09 worked by hand.

use crate::choose::Dice;
use crate::damage;
use crate::held::{Held, held, settings_of, sketch_of, spoil_cell};
use crate::judge::Settings;
use crate::layout;
use crate::numbers;
use crate::plain_calls::{self, Told};
use crate::plain_readings;
use crate::score::{Outcome, same};
use crate::stores;
use crate::stories;

pub const ALL: [(&str, fn() -> Outcome); 1] = [("the first bad cell, by hand", by_hand)];

/// Cells of the key, and others.
fn spoil(dice: &mut Dice, held: &mut Held, key: &[u32]) {
    let s = held.sketch;
    for _ in 0..dice.within(1, 6) {
        let row = dice.below(s.rows);
        let column = if dice.chance(50) {
            key[row as usize] as u64
        } else {
            dice.below(s.cols)
        };
        spoil_cell(dice, held, numbers::cell_at(&s, row, column));
    }
}

fn load(held: &Held) -> Told {
    let s = &held.sketch;
    let store = stores::encode(&settings_of(s), s.reading, s.state, &held.grid);
    damage::load(&store, held.grid.len())
}

/// Every call that judges cells; nothing but cells is wrong.
fn every_call(held: &Held, other: &Held, key: &[u32], later: u64) -> Outcome {
    let s = &held.sketch;
    for time in [s.reading, s.reading.saturating_add(later)] {
        plain_calls::update_at(held, key, time)?;
        plain_calls::advance_to(held, time)?;
    }
    plain_calls::update(held, key)?;
    plain_calls::merge(held, other)?;
    plain_readings::estimate(held, key)?;
    plain_readings::estimate_with(held, key, 0.5)?;
    plain_readings::mean(held, key)?;
    plain_readings::max_zoom(held)?;
    plain_readings::audit(held)?;
    plain_readings::save(held, numbers::store_length(s))?;
    load(held)?;
    Ok(())
}

pub fn story(dice: &mut Dice) -> Outcome {
    let whole = held(dice);
    let s = whole.sketch;
    for _ in 0..60 {
        let key = stories::key(dice, s.rows as usize, s.cols as usize);
        if !numbers::key_fits(&s, &key) {
            continue;
        }
        let (mut mine, mut other) = (whole.clone(), whole.clone());
        spoil(dice, &mut other, &key);
        if dice.chance(80) {
            spoil(dice, &mut mine, &key);
        }
        every_call(&mine, &other, &key, dice.below(3_000)).map_err(|what| format!("{what}; {s:?}, key {key:?}"))?;
    }
    Ok(())
}

/// Two rows of two cells, of which these are unsound.
fn grid(settings: &Settings, unsound: &[usize]) -> Held {
    let mut held = Held {
        sketch: sketch_of(settings, 0, 1),
        grid: vec![0; 4 * layout::depth(settings.t as u64)],
    };
    for &index in unsound {
        held.grid[layout::zoom_of(settings.t as u64, index)] = 255;
    }
    held
}

/// Cells 1 and 2 are unsound: by columns cell 2 would come first, and it is the last.
fn by_hand() -> Outcome {
    let items = Settings {
        rows: 2,
        cols: 2,
        t: 1,
        c: 2,
        timed: false,
        length: 1_000,
        epoch: 0,
        seed: 1,
    };
    let short = Settings { length: 1, ..items };
    let timed = Settings {
        timed: true,
        length: 10,
        ..items
    };
    let two = grid(&items, &[1, 2]);
    let timed = grid(&timed, &[1, 2]);
    let (second, first) = (grid(&items, &[2]), grid(&items, &[1]));
    let cases = [
        // An audit tells 1 + the index.
        ("audit", plain_readings::audit(&two)?, (0, 1 + 1)),
        (
            "audit of sound cells",
            plain_readings::audit(&grid(&items, &[]))?,
            (0, 0),
        ),
        ("max_zoom", plain_readings::max_zoom(&two)?, (14, 1)),
        ("save", plain_readings::save(&two, 1_024)?, (14, 1)),
        ("load", load(&two)?, (14, 1)),
        // The key's cells are 0 and 2, 1 and 2, 0 and 3.
        ("estimate", plain_readings::estimate(&two, &[0, 0])?, (14, 2)),
        ("estimate of both", plain_readings::estimate(&two, &[1, 0])?, (14, 1)),
        ("estimate of neither", plain_readings::estimate(&two, &[0, 1])?, (0, 0)),
        ("mean", plain_readings::mean(&two, &[0, 0])?, (14, 2)),
        ("update", plain_calls::update(&two, &[0, 0])?, (14, 2)),
        (
            "update that crosses",
            plain_calls::update(&grid(&short, &[1, 2]), &[0, 0])?,
            (14, 1),
        ),
        ("update_at", plain_calls::update_at(&timed, &[0, 0], 9)?, (14, 2)),
        (
            "update_at that crosses",
            plain_calls::update_at(&timed, &[0, 1], 10)?,
            (14, 1),
        ),
        ("advance_to", plain_calls::advance_to(&timed, 9)?, (0, 0)),
        ("advance_to that crosses", plain_calls::advance_to(&timed, 10)?, (14, 1)),
        ("merge", plain_calls::merge(&second, &first)?, (14, 2)),
        ("merge the other way", plain_calls::merge(&first, &second)?, (14, 1)),
        (
            "merge into sound cells",
            plain_calls::merge(&grid(&items, &[]), &two)?,
            (14, 1),
        ),
    ];
    for (call, told, right) in cases {
        same(call, told, right)?;
    }
    Ok(())
}
