//! The calls with plain values, chosen at random, on sketches and grids that were spoiled or not.

use crate::choose::Dice;
use crate::held::{Held, WIDE, held, spoil};
use crate::numbers;
use crate::plain_calls::{self, Told};
use crate::plain_readings;
use crate::score::Outcome;
use crate::stories::{self, FRACTIONS};
use microscope::calls::Sketch;

fn changes(dice: &mut Dice, before: &Held, key: &[u32]) -> Told {
    let time = if dice.chance(50) {
        before.sketch.reading.saturating_add(dice.below(3_000))
    } else {
        dice.any_size()
    };
    match dice.below(3) {
        0 => plain_calls::update(before, key),
        1 => plain_calls::update_at(before, key, time),
        _ => plain_calls::advance_to(before, time),
    }
}

fn readings(dice: &mut Dice, held: &Held, key: &[u32]) -> Told {
    match dice.below(4) {
        0 => plain_readings::mean(held, key),
        1 => plain_readings::estimate(held, key),
        _ => plain_readings::estimate_with(held, key, dice.one_of(&FRACTIONS)),
    }
}

fn looks(dice: &mut Dice, held: &Held) -> Told {
    let s = held.sketch;
    plain_readings::max_zoom(held)?;
    plain_readings::audit(held)?;
    let row = dice.one_of(&[0, s.rows, s.rows.wrapping_sub(1), WIDE, u64::MAX]);
    let col = dice.one_of(&[0, s.cols, s.cols.wrapping_sub(1), WIDE, u64::MAX]);
    plain_readings::bucket_check(held, row, col)
}

fn saves(dice: &mut Dice, held: &Held) -> Told {
    plain_readings::store_length(held)?;
    // A grid that was never there could ask for more room than there is.
    let room = numbers::store_length(&held.sketch).min(10_000) + dice.one_of(&[0, 0, 0, 1, 512]);
    plain_readings::save(held, room)
}

/// With another of the same settings, or of its own.
fn merges(dice: &mut Dice, mine: &Held, mut other: Held) -> Told {
    if dice.chance(50) {
        other.sketch = Sketch {
            state: other.sketch.state,
            ..mine.sketch
        };
    }
    plain_calls::merge(mine, &other)
}

fn starts(dice: &mut Dice, held: &Held) -> Told {
    let seed = if dice.chance(20) { 0 } else { dice.any() };
    plain_calls::start(held, seed)
}

pub fn story(dice: &mut Dice) -> Outcome {
    let whole = held(dice);
    for _ in 0..60 {
        let mut held = whole.clone();
        let key = stories::key(dice, held.sketch.rows as usize, held.sketch.cols as usize);
        spoil(dice, &mut held);
        let told = match dice.below(6) {
            0 | 1 => changes(dice, &held, &key),
            2 => readings(dice, &held, &key),
            3 => looks(dice, &held).and_then(|_| saves(dice, &held)),
            4 => starts(dice, &held),
            _ => {
                let mut other = whole.clone();
                spoil(dice, &mut other);
                merges(dice, &held, other)
            }
        };
        told.map_err(|what| format!("{what}; {:?}, {} bytes", held.sketch, held.grid.len()))?;
    }
    Ok(())
}
