//! The file `sketches`: stories of one or two sketches, told call by call.

use crate::choose::Dice;
use crate::clocks::random_length;
use crate::judge::{self, Settings};
use crate::stage::{SHOWN_GRID, Stage};
use crate::write::Out;

/// Fractions in range, the edges first.
const IN_RANGE: [f64; 10] = [
    0.0,
    -0.0,
    1.0,
    0.5,
    0.1,
    1.0 / 3.0,
    5e-324,
    f64::MIN_POSITIVE,
    1.0 - f64::EPSILON / 2.0,
    0.999,
];

/// Fractions out of range: refused from n = t on, and not looked at before.
const OUT_OF_RANGE: [f64; 7] = [
    f64::NAN,
    -f64::NAN,
    1.0 + f64::EPSILON,
    -5e-324,
    -1.0,
    f64::INFINITY,
    f64::NEG_INFINITY,
];

const fn counting(rows: u16, cols: u32, t: u16, c: u16, length: u64, seed: u64) -> Settings {
    Settings {
        rows,
        cols,
        t,
        c,
        timed: false,
        length,
        epoch: 0,
        seed,
    }
}

const fn timing(rows: u16, cols: u32, t: u16, c: u16, length: u64, epoch: u64) -> Settings {
    Settings {
        rows,
        cols,
        t,
        c,
        timed: true,
        length,
        epoch,
        seed: 11,
    }
}

// ---- directed ----

/// Bench item 10, and what stands before it.
fn bench_sheet(stage: &mut Stage) {
    stage.make(0, &counting(1, 2, 1, 2, 2, 1));
    for _ in 0..3 {
        stage.update(0, &[1], 1);
        stage.read(0, &[1]);
    }
    for fraction in IN_RANGE {
        stage.read_with(0, &[1], fraction);
    }
    stage.read(0, &[0]);
}

/// seen at the top: it saturates, records still, and no longer crosses.
fn seen_at_the_top(stage: &mut Stage) {
    for length in [1, 2, 3, 1 << 53] {
        for t in [1, 3] {
            stage.make(0, &counting(2, 2, t, 2, length, 5));
            stage.update(0, &[0, 1], 2);
            for below in (0..=3).rev() {
                stage.set(0, u64::MAX - below, 77);
                for _ in 0..4 {
                    stage.update(0, &[1, 1], 1);
                    stage.read(0, &[1, 1]);
                }
            }
            stage.update(0, &[1, 1], 600);
            stage.read(0, &[1, 1]);
            stage.max_zoom(0);
        }
    }
}

/// now before the epoch (n = 0, fraction 1.0), at it, past it, and at the top.
fn now_before_the_epoch(stage: &mut Stage) {
    for (length, epoch) in [(1, 10), (10, 1000), (1 << 53, u64::MAX), (7, u64::MAX - 30)] {
        stage.make(0, &timing(2, 2, 2, 3, length, epoch));
        stage.update_at(0, &[0, 0], 0, 3);
        for reading in [0, epoch - 1, epoch / 2] {
            stage.set(0, reading, 3);
            stage.read(0, &[0, 0]);
            stage.update_at(0, &[0, 1], 0, 1);
            stage.advance_to(0, epoch - 1);
            stage.read(0, &[0, 1]);
            stage.advance_to(0, epoch);
            stage.update_at(0, &[0, 1], epoch.saturating_add(length), 2);
            stage.read(0, &[0, 1]);
        }
        stage.update_at(0, &[1, 1], u64::MAX, 1);
        stage.update_at(0, &[1, 1], u64::MAX, 300);
        stage.update_at(0, &[1, 1], epoch, 1);
        stage.read(0, &[1, 1]);
    }
}

/// Every fraction below n = t, where any is taken, and from n = t on, where some are turned back.
fn fractions(stage: &mut Stage) {
    stage.make(0, &timing(1, 2, 3, 2, 10, 0));
    for n in 0..6 {
        stage.update_at(0, &[0], n * 10 + 3, n as u32 * 7 + 1);
        for fraction in IN_RANGE.into_iter().chain(OUT_OF_RANGE) {
            stage.read_with(0, &[0], fraction);
        }
        stage.read(0, &[0]);
    }
    // With nothing counted, −0.0 × 0 is −0.0, and 0 + −0.0 is 0.
    stage.read_with(0, &[1], -0.0);
}

/// Jumps of 1 to t + 3 sub-windows and beyond, from a sketch that has zoomed and has open shutters.
fn jumps(stage: &mut Stage) {
    for t in [1, 2, 4] {
        for jump in (1..=t as u64 + 3).chain([1000, 1 << 40]) {
            stage.make(0, &timing(2, 2, t, 2, 5, 100));
            stage.update_at(0, &[0, 1], 101, 777);
            stage.update_at(0, &[1, 1], 104, 301);
            stage.read(0, &[0, 1]);
            stage.advance_to(0, 104 + jump * 5);
            stage.read(0, &[0, 1]);
            stage.update_at(0, &[0, 1], 104 + jump * 5, 1);
            stage.read(0, &[1, 1]);
            stage.max_zoom(0);
        }
    }
}

/// Merges that meet, and merges turned back for each reason, and for two at once.
fn merges(stage: &mut Stage) {
    let mine = counting(2, 2, 2, 2, 400, 21);
    let fill = |stage: &mut Stage, slot: usize, times: u32| {
        stage.update(slot, &[0, 1], times);
        stage.update(slot, &[1, 1], 3);
    };
    for (mine_times, their_times) in [(0, 0), (5, 7), (300, 350), (1000, 1100), (900, 10)] {
        stage.make(0, &mine);
        stage.make(1, &Settings { seed: 22, ..mine });
        fill(stage, 0, mine_times);
        fill(stage, 1, their_times);
        stage.merge(0);
        stage.set(1, 0, 9);
        stage.merge(0);
        let reading = stage.clock(0).reading;
        stage.set(1, reading, 8);
        for _ in 0..6 {
            stage.merge(0);
            stage.merge(1);
        }
        stage.read(0, &[0, 1]);
        stage.max_zoom(0);
    }
    stage.make(0, &mine);
    for other in [
        Settings { rows: 1, ..mine },
        Settings { cols: 4, ..mine },
        Settings { t: 1, ..mine },
        Settings { c: 3, ..mine },
        Settings {
            c: 3,
            length: 401,
            ..mine
        },
        Settings {
            length: 401,
            ..mine
        },
        Settings {
            timed: true,
            ..mine
        },
    ] {
        stage.make(1, &other);
        stage.merge(0);
        stage.merge(1);
    }
    let timed = timing(1, 2, 1, 2, 10, 50);
    stage.make(0, &timed);
    stage.make(1, &Settings { epoch: 51, ..timed });
    stage.merge(0);
    stage.make(1, &timed);
    stage.advance_to(1, 59);
    stage.merge(0);
    stage.advance_to(1, 60);
    stage.merge(0);
}

/// Sums of 511 in a sketch (bench item 9 in both cells of a row): some draws are even and bring a second raise.
fn merges_raised_twice(stage: &mut Stage) {
    let settings = counting(1, 2, 1, 2, 100, 1);
    let full = judge::cell(1, 2, &[255, 0, 0], 1, 1, 0xEE);
    let grid = [full.as_slice(), &full].concat();
    stage.make(0, &settings);
    stage.make(1, &settings);
    stage.set_grid(1, &grid);
    for state in 1..=12 {
        stage.set_grid(0, &grid);
        stage.set(0, 0, state);
        stage.merge(0);
    }
}

/// A counting sketch turns a time back before it does anything.
fn other_kind(stage: &mut Stage) {
    stage.make(0, &counting(1, 2, 1, 2, 2, 1));
    stage.update(0, &[1], 1);
    stage.advance_to(0, 0);
    stage.advance_to(0, 5);
    stage.update_at(0, &[1], 5, 1);
    stage.read(0, &[1]);
}

/// Each number of rows, with the most columns that 128 bits allow or nearly so, while the grid is small enough.
fn shapes(stage: &mut Stage, dice: &mut Dice) {
    for rows in 1..=128u16 {
        let bits = (128 / rows as u64).min(dice.within(1, 5)) as u32;
        let settings = counting(rows, 1 << bits, 1, 2, 605, rows as u64);
        stage.make(0, &settings);
        let columns = key(dice, &settings);
        stage.update(0, &columns, 2);
        stage.update(0, &columns, 600);
        // Zoomed out by now, and with the shutter open as the boundary comes.
        stage.update(0, &columns, 5);
        stage.read(0, &columns);
    }
    for bits in 1..=16 {
        let settings = timing(1, 1 << bits, 1, 3, 10, 0);
        stage.make(0, &settings);
        let columns = key(dice, &settings);
        let last = [(settings.cols - 1) as u16];
        stage.update_at(0, &columns, 1, 500);
        stage.update_at(0, &last, 9, 300);
        stage.advance_to(0, 10);
        stage.read(0, &columns);
        stage.read(0, &last);
        stage.max_zoom(0);
    }
}

/// Grids of many cells and grids of large cells; their digests stand for them.
fn large_grids(stage: &mut Stage, dice: &mut Dice) {
    for (rows, cols, t) in [
        (2, 16_384, 4),
        (8, 8192, 1),
        (4, 1024, 12),
        (3, 4096, 7),
        (16, 256, 12),
    ] {
        let settings = counting(rows, cols, t, 2, 500, 3);
        stage.make(0, &settings);
        for _ in 0..4 {
            let columns = key(dice, &settings);
            stage.update(0, &columns, 300);
            stage.read(0, &columns);
        }
    }
    for t in [14, 63, 250, 1000, 4095, 4096] {
        let settings = timing(2, 2, t, dice.base(), 3, 7);
        stage.make(0, &settings);
        stage.make(
            1,
            &Settings {
                seed: 5,
                ..settings
            },
        );
        let mut time = 7;
        for step in [0, 1, 2, 3, 3 * t as u64 / 2, 3 * t as u64, 1] {
            time += step;
            stage.update_at(0, &[0, 1], time, 400);
            stage.update_at(1, &[1, 1], time, 300);
            stage.read(0, &[0, 1]);
        }
        stage.merge(0);
        stage.read(0, &[0, 1]);
        stage.advance_to(0, time + 3 * (t as u64 + 1));
        stage.read(0, &[0, 1]);
        stage.advance_to(0, time + 9 * (t as u64 + 2));
        stage.read(0, &[0, 1]);
        stage.max_zoom(0);
    }
}

fn directed(stage: &mut Stage, dice: &mut Dice) {
    bench_sheet(stage);
    seen_at_the_top(stage);
    now_before_the_epoch(stage);
    fractions(stage);
    jumps(stage);
    merges(stage);
    merges_raised_twice(stage);
    other_kind(stage);
    shapes(stage, dice);
    large_grids(stage, dice);
}

// ---- random ----

fn key(dice: &mut Dice, settings: &Settings) -> Vec<u16> {
    (0..settings.rows)
        .map(|_| dice.below(settings.cols as u64) as u16)
        .collect()
}

fn random_settings(dice: &mut Dice) -> Settings {
    let timed = dice.chance(50);
    let wide = dice.chance(10);
    loop {
        let settings = Settings {
            rows: dice.within(1, if wide { 12 } else { 4 }) as u16,
            cols: 1 << dice.within(1, if wide { 7 } else { 3 }),
            t: dice.sub_windows(),
            c: dice.base(),
            timed,
            length: random_length(dice),
            epoch: if timed { dice.any_size() } else { 0 },
            seed: dice.any_size(),
        };
        let bytes = settings.grid_bytes() as usize;
        if bytes <= if wide { 8192 } else { SHOWN_GRID } {
            return settings;
        }
    }
}

/// The same settings with another seed, and now and then with one thing changed.
fn cousin(dice: &mut Dice, settings: &Settings) -> Settings {
    let mut other = *settings;
    other.seed = dice.any_size();
    match dice.below(24) {
        0 => other.t = settings.t % 4 + 1,
        1 => other.c = settings.c % 255 + 2,
        2 => other.length = settings.length / 2 + 1,
        3 if settings.timed => other.epoch = settings.epoch ^ 1,
        4 => other.rows = 1,
        _ => {}
    }
    if other.grid_bytes() > 8192 {
        *settings
    } else {
        other
    }
}

/// A time not far from the clock's own, before it or after it.
fn random_time(dice: &mut Dice, stage: &Stage, slot: usize, t: u16) -> u64 {
    let clock = stage.clock(slot);
    let ring = t as u64 + 2;
    let lengths = |k: u64| clock.reading.saturating_add(clock.length.saturating_mul(k));
    match dice.below(12) {
        0..4 => clock.reading,
        4..6 => clock.reading.saturating_add(dice.below(3)),
        6..8 => lengths(1),
        8 => lengths(dice.within(1, ring + 1)).saturating_sub(dice.below(2)),
        9 => lengths(dice.one_of(&[ring - 1, ring, 1 << 20])),
        10 => clock.reading.saturating_sub(dice.any_size()),
        _ => lengths(2).saturating_sub(dice.below(3)),
    }
}

fn random_times(dice: &mut Dice) -> u32 {
    match dice.below(10) {
        0..6 => 1,
        6..8 => dice.within(2, 20) as u32,
        8 => dice.within(200, 600) as u32,
        _ => dice.one_of(&[254, 255, 256, 257]),
    }
}

fn random_fraction(dice: &mut Dice) -> f64 {
    match dice.below(10) {
        0 => dice.one_of(&OUT_OF_RANGE),
        1..5 => dice.one_of(&IN_RANGE),
        _ => dice.below(1 << 53) as f64 / (1u64 << 53) as f64,
    }
}

/// A reading to be set: near the top, near the epoch, or near a boundary.
fn random_reading(dice: &mut Dice, stage: &Stage, slot: usize) -> u64 {
    let clock = stage.clock(slot);
    match dice.below(4) {
        0 => u64::MAX - dice.below(4),
        1 => clock.epoch.saturating_sub(dice.below(20)),
        2 => clock.epoch.saturating_add(clock.length).saturating_sub(1),
        _ => dice.any_size(),
    }
}

fn random_call(dice: &mut Dice, stage: &mut Stage, slot: usize, settings: &Settings, key: &[u16]) {
    match dice.below(100) {
        0..48 => random_insertion(dice, stage, slot, settings, key),
        48..56 if settings.timed => {
            let time = random_time(dice, stage, slot, settings.t);
            stage.advance_to(slot, time);
        }
        48..72 => stage.read(slot, key),
        72..88 => {
            let fraction = random_fraction(dice);
            stage.read_with(slot, key, fraction);
        }
        88..91 => stage.max_zoom(slot),
        91..94 => {
            let (reading, state) = (random_reading(dice, stage, slot), dice.state());
            stage.set(slot, reading, state);
        }
        94..98 if shown(settings) => set_random_grid(dice, stage, slot, settings),
        _ if !settings.timed => stage.advance_to(slot, dice.any_size()),
        _ => stage.read(slot, key),
    }
}

fn shown(settings: &Settings) -> bool {
    settings.grid_bytes() as usize <= SHOWN_GRID
}

/// Any sound cells: zooms that few streams reach, open shutters, pads that are not 0.
fn set_random_grid(dice: &mut Dice, stage: &mut Stage, slot: usize, settings: &Settings) {
    let cells = settings.rows as u32 * settings.cols;
    let grid: Vec<u8> = (0..cells)
        .flat_map(|_| dice.cell(settings.t, settings.c))
        .collect();
    stage.set_grid(slot, &grid);
}

fn random_insertion(
    dice: &mut Dice,
    stage: &mut Stage,
    slot: usize,
    settings: &Settings,
    key: &[u16],
) {
    let times = random_times(dice);
    if settings.timed {
        let time = random_time(dice, stage, slot, settings.t);
        stage.update_at(slot, key, time, times);
    } else {
        stage.update(slot, key, times);
    }
}

/// Brings the other clock to the same sub-window, most of the time, and merges.
fn random_merge(dice: &mut Dice, stage: &mut Stage, slot: usize) {
    if dice.chance(85) {
        let (reading, state) = (stage.clock(slot).reading, stage.state(1 - slot));
        stage.set(1 - slot, reading, state);
    }
    stage.merge(slot);
}

/// Makes a sketch; two times in three it starts from cells of any kind.
fn begin(dice: &mut Dice, stage: &mut Stage, slot: usize, settings: &Settings) {
    stage.make(slot, settings);
    if shown(settings) && dice.chance(66) {
        set_random_grid(dice, stage, slot, settings);
        let (reading, state) = (random_reading(dice, stage, slot), dice.state());
        stage.set(slot, reading, state);
    }
}

fn random_story(dice: &mut Dice, stage: &mut Stage) {
    let first = random_settings(dice);
    let settings = [first, cousin(dice, &first)];
    let paired = dice.chance(40);
    begin(dice, stage, 0, &settings[0]);
    if paired {
        begin(dice, stage, 1, &settings[1]);
    }
    let keys = [0, 1].map(|slot| [0, 1, 2].map(|_| key(dice, &settings[slot])));
    for _ in 0..dice.within(10, 60) {
        let slot = if paired { dice.below(2) as usize } else { 0 };
        if paired && dice.chance(12) {
            random_merge(dice, stage, slot);
        } else {
            let which = dice.below(3) as usize;
            random_call(dice, stage, slot, &settings[slot], &keys[slot][which]);
        }
    }
}

pub fn write(out: &mut Out, dice: &mut Dice, calls: u64) {
    judge::quietly(|| {
        let mut stage = Stage::new(out);
        directed(&mut stage, dice);
        while stage.out.calls() < calls {
            random_story(dice, &mut stage);
        }
    });
}
