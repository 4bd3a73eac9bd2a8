//! Demand 3 through the wrapper: Over beside exact counts, within the band by the M that a caller can keep.

use crate::beside::zoom_at;
use crate::choose::Dice;
use crate::judge::{self, Settings};
use crate::pair::make;
use crate::score::{Outcome, called, number, same, same_number};
use crate::tally::Tally;
use microscope::{Done, MicroCm, MicroParams, calls};

pub const ALL: [(&str, fn() -> Outcome); 2] = [
    ("an item's zoom that no call shows", unseen_by_item),
    ("a shutter's zoom that no call shows", unseen_by_shutter),
];

/// Below, at and above the items that zoom a cell out for the first time, and for the second by a base of 2 or 3.
const LENGTHS: [u64; 21] = [
    1, 2, 3, 254, 255, 256, 257, 258, 300, 509, 510, 511, 512, 513, 514, 515, 766, 767, 768, 769, 770,
];
const BASES: [u16; 8] = [2, 3, 4, 5, 7, 16, 255, 256];

/// Items of one key at a stretch: they fill a pixel whose unit is 3.
const MOST_ITEMS: u64 = 800;

/// The zoom that this cell holds, or may hold inside the next call: one more where the pixel of the present sub-window
/// is full. No other pixel is full when it is credited, and this one zooms out once at most: by the item, or by the
/// shutter closed at a crossing. The crossing in the same call may zoom in again, so the zoom after it does not tell.
fn zoom_to_come(ours: &MicroCm, cell: &[u8]) -> u8 {
    let MicroParams { t, c } = ours.params();
    let zoom = cell[zoom_at(t)];
    let full = cell[ours.sub_window() as usize % (t + 2)] == 255;
    (zoom + full as u8).min(judge::max_zoom(c as u16))
}

/// A fresh sketch, its exact counts, and of each cell the highest zoom so far.
struct Watched {
    ours: MicroCm,
    tally: Tally,
    peaks: Vec<u8>,
}

impl Watched {
    fn fresh(settings: Settings) -> Result<Self, String> {
        Ok(Self {
            ours: make(&settings).map_err(|why| why.to_string())?,
            tally: Tally::fresh(settings),
            peaks: vec![0; settings.rows as usize * settings.cols as usize],
        })
    }

    fn raise_peaks(&mut self) {
        let cells = self.ours.grid().chunks(self.ours.cell_bytes());
        for (peak, cell) in self.peaks.iter_mut().zip(cells) {
            *peak = zoom_to_come(&self.ours, cell).max(*peak);
        }
    }

    /// M: the highest zoom that the key's cells ever held.
    fn peak(&self, key: &[u32]) -> u8 {
        let cells = key
            .iter()
            .enumerate()
            .map(|(row, &column)| row * self.ours.cols() + column as usize);
        cells.map(|index| self.peaks[index]).max().expect("a row")
    }

    /// Nothing is claimed once a cell of the key held max_zoom.
    fn band(&self, key: &[u32]) -> Option<u64> {
        let Settings { t, c, .. } = self.tally.settings;
        let peak = self.peak(key);
        let k = self.tally.n().min(t as u64) + 1;
        (peak < judge::max_zoom(c)).then(|| (2 * k - 1) * (judge::unit(c, peak) - 1))
    }

    fn over(&self, key: &[u32]) -> Result<u64, String> {
        let reading = called(self.ours.estimate(key)).map_err(|why| why.to_string())?;
        Ok(reading.over_items)
    }

    fn within_band(&self, key: &[u32]) -> Outcome {
        let (over, exact) = (self.over(key)?, self.tally.exact(key));
        match self.band(key) {
            Some(band) if over.abs_diff(exact) > band => Err(format!(
                "Over of {key:?} is {over}, exactly {exact}, the band {band} by M = {}",
                self.peak(key)
            )),
            _ => Ok(()),
        }
    }

    /// No cell comes near its ceiling by so few items, so no unit is lost.
    fn accepted(&mut self, answer: Result<Done, microscope::Error>) -> Outcome {
        let done = answer.map_err(|why| why.to_string())?;
        same("units lost", done.lost, 0)?;
        self.raise_peaks();
        Ok(())
    }

    fn update(&mut self, key: &[u32]) -> Outcome {
        self.tally.update(key);
        let answer = called(self.ours.update(key));
        self.accepted(answer)
    }

    fn update_at(&mut self, key: &[u32], time: u64) -> Outcome {
        self.tally.update_at(key, time);
        let answer = called(self.ours.update_at(key, time));
        self.accepted(answer)
    }

    fn advance_to(&mut self, time: u64) -> Outcome {
        self.tally.advance_to(time);
        let answer = called(self.ours.advance_to(time));
        self.accepted(answer)
    }
}

/// One key a column.
const NARROW: Settings = Settings {
    rows: 1,
    cols: 2,
    t: 2,
    c: 3,
    timed: false,
    length: 256,
    epoch: 0,
    seed: 1,
};

/// The sub-window's last item zooms a full pixel out, and the crossing in the same call zooms it in again.
fn unseen_by_item() -> Outcome {
    let key = [0];
    let mut watched = Watched::fresh(NARROW)?;
    for _ in 0..256 {
        watched.update(&key)?;
        same("the zoom after a call", called(watched.ours.max_zoom()), Ok(0))?;
        watched.within_band(&key)?;
    }
    same(
        "Over and exact",
        (watched.over(&key)?, watched.tally.exact(&key)),
        (255, 256),
    )?;
    same("M and the band", (watched.peak(&key), watched.band(&key)), (1, Some(6)))
}

/// A crossing closes the open shutter into a full pixel, which zooms out, and then zooms it in again.
fn unseen_by_shutter() -> Outcome {
    let key = [0];
    let mut watched = Watched::fresh(Settings {
        c: 7,
        timed: true,
        seed: 5,
        ..NARROW
    })?;
    for _ in 0..1788 {
        watched.update_at(&key, 0)?;
        watched.within_band(&key)?;
    }
    same("the zoom before the crossing", called(watched.ours.max_zoom()), Ok(1))?;
    watched.advance_to(256)?;
    same("the zoom after the crossing", called(watched.ours.max_zoom()), Ok(1))?;
    watched.within_band(&key)?;
    same(
        "Over and exact",
        (watched.over(&key)?, watched.tally.exact(&key)),
        (1764, 1788),
    )?;
    same(
        "M and the band",
        (watched.peak(&key), watched.band(&key)),
        (2, Some(144)),
    )
}

fn settings(dice: &mut Dice) -> Settings {
    Settings {
        rows: dice.within(1, 2) as u16,
        cols: 2,
        t: dice.within(1, 3) as u16,
        c: dice.one_of(&BASES),
        timed: dice.chance(50),
        length: dice.one_of(&LENGTHS),
        epoch: dice.below(1_000),
        seed: dice.any(),
    }
}

/// Items that bring the pixel of the key's first cell to 255 and, beyond, its shutter to one of its edges.
fn to_full(dice: &mut Dice, watched: &Watched, key: &[u32]) -> u64 {
    let ours = &watched.ours;
    let cell = ours.bucket_slice(0, key[0] as usize).expect("a cell");
    let MicroParams { t, c } = ours.params();
    let (mut zoom, mut shutter) = (0, 0);
    called(calls::cell_zoom(cell, t as u64, c as u64, &mut zoom)).expect("a sound cell");
    called(calls::cell_shutter(cell, t as u64, c as u64, &mut shutter)).expect("a sound cell");
    let unit = judge::unit(c as u16, zoom as u8);
    let pixel = cell[ours.sub_window() as usize % (t + 2)] as u64;
    let beyond = dice.one_of(&[0, 1, unit / 2, unit - 1, unit]);
    (unit * (255 - pixel) + beyond).saturating_sub(shutter)
}

/// The time of a call: mostly later by some sub-windows, sometimes by none or one, sometimes older.
fn time(dice: &mut Dice, tally: &Tally) -> u64 {
    let Settings { t, length, .. } = tally.settings;
    match dice.below(4) {
        0 => dice.below(tally.reading + 1),
        1 => tally.reading + dice.below(length),
        _ => tally.reading + length * dice.within(1, t as u64 + 3),
    }
}

/// A call for the other kind of clock: refused, and neither the sketch nor the tally moves.
fn other_clock(watched: &Watched, key: &[u32], time: u64) -> Outcome {
    let mut ours = watched.ours.clone();
    let answer = if watched.tally.settings.timed {
        called(ours.update(key))
    } else {
        called(ours.update_at(key, time))
    };
    same_number("the number of the other clock's call", number(&answer), 8)?;
    same("the sketch refused", &ours, &watched.ours)
}

/// This key's item so many times, on the clock that there is.
fn items(watched: &mut Watched, key: &[u32], times: u64) -> Outcome {
    for _ in 0..times.min(MOST_ITEMS) {
        if watched.tally.settings.timed {
            watched.update_at(key, watched.tally.reading)?;
        } else {
            watched.update(key)?;
        }
        watched.within_band(key)?;
    }
    Ok(())
}

/// The rest of a sub-window of items: the last 256 are of this key, those before of one that shares no cell with it.
fn rest(watched: &mut Watched, key: &[u32]) -> Outcome {
    let length = watched.tally.settings.length;
    let left = length - watched.tally.reading % length;
    let other: Vec<u32> = key.iter().map(|&column| 1 - column).collect();
    items(watched, &other, left.saturating_sub(256))?;
    items(watched, key, left.min(256))
}

fn step(dice: &mut Dice, watched: &mut Watched, keys: &[Vec<u32>]) -> Outcome {
    let key = &keys[dice.below(keys.len() as u64) as usize];
    let time = time(dice, &watched.tally);
    match (dice.below(8), watched.tally.settings.timed) {
        (0, _) => items(watched, key, dice.within(1, 12))?,
        (1 | 2, _) => items(watched, key, to_full(dice, watched, key))?,
        (3, _) => other_clock(watched, key, time)?,
        (_, false) => rest(watched, key)?,
        (4 | 5, true) => watched.update_at(key, time)?,
        (_, true) => watched.advance_to(time)?,
    }
    keys.iter().try_for_each(|key| watched.within_band(key))
}

/// A list of items on the few keys there are, with jumps.
pub fn story(dice: &mut Dice) -> Outcome {
    let settings = settings(dice);
    let mut watched = Watched::fresh(settings)?;
    let keys: Vec<Vec<u32>> = (0..1u32 << settings.rows)
        .map(|bits| (0..settings.rows).map(|row| bits >> row & 1).collect())
        .collect();
    for _ in 0..dice.within(1, 12) {
        step(dice, &mut watched, &keys).map_err(|what| format!("{what}; {settings:?}, n {}", watched.tally.n()))?;
    }
    Ok(())
}
