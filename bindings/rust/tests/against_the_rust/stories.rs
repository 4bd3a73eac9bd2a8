//! Random stories of two sketches, told to ours and to the Rust's.

use crate::choose::Dice;
use crate::damage;
use crate::judge::{self, Settings};
use crate::layout;
use crate::pair::Pair;
use crate::score::{Outcome, called, same, same_bytes};
use crate::stores;
use microscope::MicroCm;

/// Bytes of a grid that crossing after crossing is still cheap with.
const USUAL_GRID: u64 = 6_000;
const LARGE_GRID: u64 = 600_000;

pub const FRACTIONS: [f64; 14] = [
    0.0,
    -0.0,
    1.0,
    0.5,
    1.0 / 3.0,
    5e-324,
    1.0 - f64::EPSILON / 2.0,
    1.0 + f64::EPSILON,
    -5e-324,
    -1.0,
    f64::NAN,
    -f64::NAN,
    f64::INFINITY,
    f64::NEG_INFINITY,
];

fn length(dice: &mut Dice) -> u64 {
    match dice.below(10) {
        0 => 1,
        1 => dice.one_of(&[2, 1 << 53, (1 << 53) - 1, 1 << 32]),
        2..5 => dice.within(2, 20),
        _ => dice.within(20, 2_000),
    }
}

fn dimensions(dice: &mut Dice) -> (u16, u32) {
    let bits = if dice.chance(90) {
        dice.within(1, 4)
    } else {
        dice.within(1, 16)
    };
    let most = 128 / bits;
    let rows = if dice.chance(95) {
        dice.within(1, most.min(5))
    } else {
        dice.within(1, most)
    };
    (rows as u16, 1 << bits)
}

fn sub_windows(dice: &mut Dice) -> u16 {
    match dice.below(200) {
        0 => 4096,
        1..5 => dice.within(13, 4096) as u16,
        _ => dice.sub_windows(),
    }
}

/// Settings with a grid of at most `room` bytes.
pub fn settings_within(dice: &mut Dice, room: u64) -> Settings {
    loop {
        let (rows, cols) = dimensions(dice);
        let settings = Settings {
            rows,
            cols,
            t: sub_windows(dice),
            c: dice.base(),
            timed: dice.chance(50),
            length: length(dice),
            epoch: dice.any_size(),
            seed: if dice.chance(5) { 0 } else { dice.any() },
        };
        if settings.grid_bytes() <= room {
            return settings;
        }
    }
}

fn settings(dice: &mut Dice) -> Settings {
    let room = if dice.chance(3) { LARGE_GRID } else { USUAL_GRID };
    settings_within(dice, room)
}

/// A grid of sound cells, most of them near an edge of the rules.
pub fn grid(dice: &mut Dice, settings: &Settings) -> Vec<u8> {
    let cells = settings.rows as usize * settings.cols as usize;
    let cell = |_| layout::from_theirs(settings.t, dice.cell(settings.t, settings.c));
    (0..cells).flat_map(cell).collect()
}

/// A clock's reading, often early, sometimes at the top, sometimes before the epoch.
pub fn reading(dice: &mut Dice, settings: &Settings) -> u64 {
    let start = if settings.timed { settings.epoch } else { 0 };
    match dice.below(10) {
        0 => u64::MAX - dice.below(3),
        1 => dice.any_size(),
        _ => start.saturating_add(dice.below(settings.length.saturating_mul(settings.t as u64 + 4))),
    }
}

pub fn start(dice: &mut Dice, settings: Settings) -> Result<Pair, String> {
    if dice.chance(50) {
        return Pair::fresh(settings);
    }
    let reading = reading(dice, &settings);
    let state = dice.state();
    let grid = grid(dice, &settings);
    Pair::loaded(settings, reading, state, &grid)
}

/// At the reading of this one, so that merges meet.
pub fn beside(dice: &mut Dice, pair: &Pair, settings: Settings) -> Result<Pair, String> {
    let grid = grid(dice, &settings);
    let reading = judge::clock(&pair.theirs).reading;
    Pair::loaded(settings, reading, dice.state(), &grid)
}

/// A second sketch to merge with: mostly of the same settings, sometimes one of them changed.
pub fn neighbour(dice: &mut Dice, mine: Settings) -> Settings {
    let seed = dice.any();
    let near = Settings { seed, ..mine };
    match dice.below(16) {
        0 => Settings {
            rows: mine.rows % 4 + 1,
            ..near
        },
        1 => Settings { cols: 2, ..near },
        2 => Settings {
            t: mine.t % 4 + 1,
            ..near
        },
        3 => Settings {
            c: mine.c % 255 + 2,
            ..near
        },
        4 => Settings {
            timed: !mine.timed,
            ..near
        },
        5 => Settings {
            length: mine.length % 100 + 1,
            ..near
        },
        6 => Settings {
            epoch: mine.epoch ^ 1,
            ..near
        },
        _ => near,
    }
}

/// One column a row; now and then a key that does not fit.
pub fn key(dice: &mut Dice, rows: usize, cols: usize) -> Vec<u32> {
    let hot = dice.chance(60);
    let most = if hot { 2 } else { cols as u64 };
    let mut key: Vec<u32> = (0..rows).map(|_| dice.below(most) as u32).collect();
    if dice.chance(3) {
        match dice.below(4) {
            0 => key.push(0),
            1 => drop(key.pop()),
            2 => key[0] = cols as u32,
            _ => *key.last_mut().expect("a row") = dice.one_of(&[u32::MAX, 1 << 31, cols as u32 + 1, 65_536]),
        }
    }
    key
}

pub fn time(dice: &mut Dice, pair: &Pair) -> u64 {
    let now = judge::clock(&pair.theirs).reading;
    let length = pair.settings.length;
    let t = pair.settings.t as u64;
    match dice.below(20) {
        0 => dice.any_size(),
        1 => now.saturating_sub(dice.any_size()),
        2 => now.saturating_add(length.saturating_mul(dice.within(1, t + 4))),
        3 | 4 => now.saturating_add(length),
        _ => now.saturating_add(dice.below(length.min(40) + 1)),
    }
}

/// The same item a number of times, on the clock that there is; now and then on the other.
fn items(dice: &mut Dice, pair: &mut Pair) -> Outcome {
    let key = key(dice, pair.ours.rows(), pair.ours.cols());
    let times = if dice.chance(20) {
        dice.within(1, 600)
    } else {
        dice.within(1, 12)
    };
    let timed = pair.settings.timed != dice.chance(2);
    let time = time(dice, pair);
    for _ in 0..times {
        if timed {
            pair.update_at(&key, time)?
        } else {
            pair.update(&key)?
        }
    }
    pair.read(&key)
}

fn stored(pair: &Pair) -> Outcome {
    pair.equal_grids()?;
    let clock = judge::clock(&pair.theirs);
    let right = stores::encode(
        &pair.settings,
        clock.reading,
        judge::state(&pair.theirs),
        pair.ours.grid(),
    );
    let store = called(pair.ours.save()).map_err(|why| why.to_string())?;
    same_bytes("the store", &store, &right)?;
    same("length of a store", called(pair.ours.store_length()), Ok(right.len()))?;
    same(
        "the sketch loaded",
        called(MicroCm::load(&store)),
        Ok(without_codes(&pair.ours)),
    )
}

/// A load leaves no codes.
fn without_codes(ours: &MicroCm) -> MicroCm {
    let mut ours = ours.clone();
    ours.set_codes(&[], &[]).expect("no codes are a list too");
    ours
}

/// One call or some, on one of the two.
pub fn step(dice: &mut Dice, pair: &mut Pair, other: &mut Pair) -> Outcome {
    let (rows, cols) = (pair.ours.rows(), pair.ours.cols());
    match dice.below(100) {
        0..40 => items(dice, pair),
        40..50 => items(dice, other),
        50..70 => pair.read(&key(dice, rows, cols)),
        70..80 => pair.read_with(&key(dice, rows, cols), dice.one_of(&FRACTIONS)),
        80..88 => pair.advance_to(time(dice, pair)),
        88..92 => pair.look(
            dice.below(rows as u64 + 1) as usize,
            dice.below(cols as u64 + 1) as usize,
        ),
        92..96 => pair.merge(other),
        96 => other.merge(pair),
        97 | 98 => stored(pair),
        _ => damage::of_sketch(dice, &pair.ours),
    }
}

pub fn story(dice: &mut Dice) -> Outcome {
    let settings = settings(dice);
    let large = settings.grid_bytes() > USUAL_GRID;
    let mut pair = start(dice, settings)?;
    let others = neighbour(dice, settings);
    let mut other = if dice.chance(50) {
        beside(dice, &pair, others)?
    } else {
        start(dice, others)?
    };
    let steps = if large { dice.within(1, 15) } else { dice.within(1, 150) };
    for _ in 0..steps {
        step(dice, &mut pair, &mut other)
            .map_err(|what| format!("{what}; {:?}, clock {:?}", pair.settings, pair.ours.clock()))?;
    }
    pair.agree_wholly()?;
    other.agree_wholly()
}
