//! Calls chosen for their edges, with the answers worked out by hand where the Rust has none.

use crate::held;
use crate::judge::Settings;
use crate::numbers;
use crate::pair::Pair;
use crate::score::{Outcome, called, number, same, same_number};
use crate::stories::FRACTIONS;

pub const ALL: [(&str, fn() -> Outcome); 7] = [
    ("bench sheet", bench_sheet),
    ("means from key-on", means),
    ("edges of the clock", clock_edges),
    ("fractions", fractions),
    ("jumps", jumps),
    ("merges", merges),
    ("the largest grid", largest),
];

pub const SMALL: Settings = Settings {
    rows: 2,
    cols: 4,
    t: 2,
    c: 2,
    timed: false,
    length: 400,
    epoch: 0,
    seed: 7,
};

const TIMED: Settings = Settings {
    timed: true,
    length: 5,
    epoch: 100,
    ..SMALL
};

/// Item 10 of document 01's bench sheet.
fn bench_sheet() -> Outcome {
    let settings = Settings {
        rows: 1,
        cols: 2,
        t: 1,
        length: 2,
        ..SMALL
    };
    let mut pair = Pair::fresh(settings)?;
    for _ in 0..3 {
        pair.update(&[1])?;
        pair.read(&[1])?;
    }
    let reading = pair.ours.estimate(&[1]).map_err(|why| why.to_string())?;
    same(
        "Over, Under and Linear",
        [reading.over, reading.under, reading.linear],
        [3.0, 1.0, 2.0],
    )?;
    same("mean", pair.ours.mean(&[1]), Ok(1))?;
    pair.read(&[0])
}

/// Document 02's T-08: the item at n = 0 that it tells of, the end of the first window, n = t, and the last n of all.
fn means() -> Outcome {
    let settings = Settings {
        t: 12,
        length: 1,
        epoch: 0,
        ..TIMED
    };
    let mut pair = Pair::fresh(settings)?;
    let key = [1, 2];
    let each = [
        (0, 1, 1),         // document 01 gave 0
        (0, 9, 10),        // 10 by 1
        (1, 0, 5),         // 10 by 2
        (2, 0, 3),         // 10 by 3
        (10, 1, 1),        // 11 by 11
        (11, 12, 1),       // 23 by 12
        (12, 11, 2),       // 24 by 12: the first 10 are in Over alone
        (u64::MAX, 25, 2), // 25 by 12
    ];
    for (n, items, right) in each {
        pair.advance_to(n)?;
        for _ in 0..items {
            pair.update_at(&key, n)?;
        }
        same("mean", called(pair.ours.mean(&key)), Ok(right))?;
        pair.read(&key)?;
    }
    Ok(())
}

/// seen at the top of its range, now before the epoch and at the top.
fn clock_edges() -> Outcome {
    let grid = vec![0; numbers::grid_bytes(&held::sketch_of(&SMALL, 0, 7))];
    for length in [1, 2, 3, 1 << 53] {
        let mut pair = Pair::loaded(Settings { length, ..SMALL }, u64::MAX - 3, 77, &grid)?;
        for _ in 0..600 {
            pair.update(&[1, 1])?;
            pair.read(&[1, 1])?;
        }
        let mut pair = Pair::loaded(Settings { length, ..TIMED }, 0, 77, &grid)?;
        for time in [0, 99, 100, 101, 99, 105, u64::MAX, u64::MAX, 0] {
            pair.advance_to(time)?;
            pair.read(&[0, 3])?;
            pair.update_at(&[0, 3], time)?;
            pair.look(1, 3)?;
        }
    }
    Ok(())
}

/// Any fraction is taken below n = t, and only those within 0 and 1 from there on.
fn fractions() -> Outcome {
    let mut pair = Pair::fresh(TIMED)?;
    for n in 0..5 {
        for _ in 0..300 {
            pair.update_at(&[1, 2], 103 + 5 * n)?;
        }
        for fraction in FRACTIONS {
            pair.read_with(&[1, 2], fraction)?;
            pair.read_with(&[0, 0], fraction)?;
        }
    }
    let refused = called(pair.ours.estimate_with(&[1, 2], f64::NAN));
    same_number("the number of no fraction", number(&refused), 13)
}

/// Jumps of 1 to t + 3 sub-windows and beyond, from a sketch that has zoomed and has open shutters.
fn jumps() -> Outcome {
    for jump in [1, 2, 3, 4, 5, 1000, 1 << 40] {
        let mut pair = Pair::fresh(TIMED)?;
        for _ in 0..777 {
            pair.update_at(&[0, 1], 101)?;
        }
        for _ in 0..301 {
            pair.update_at(&[3, 1], 104)?;
        }
        pair.advance_to(104 + 5 * jump)?;
        pair.read(&[0, 1])?;
        pair.read(&[3, 1])?;
        pair.look(0, 0)?;
    }
    Ok(())
}

fn merges() -> Outcome {
    let mut mine = Pair::fresh(SMALL)?;
    let mut other = Pair::fresh(Settings { seed: 8, ..SMALL })?;
    for _ in 0..350 {
        mine.update(&[0, 1])?;
        other.update(&[0, 2])?;
    }
    for _ in 0..8 {
        mine.merge(&other)?;
        other.merge(&mine)?;
        mine.read(&[0, 1])?;
    }
    for _ in 0..50 {
        mine.update(&[3, 3])?;
    }
    // Another sub-window, then each setting in turn.
    let differing = [
        (12, SMALL),
        (10, Settings { rows: 1, ..SMALL }),
        (10, Settings { cols: 2, ..SMALL }),
        (10, Settings { t: 1, ..SMALL }),
        (
            10,
            Settings {
                c: 3,
                length: 9,
                ..SMALL
            },
        ),
        (11, Settings { length: 401, ..SMALL }),
        (11, Settings { timed: true, ..SMALL }),
    ];
    for (right, settings) in differing {
        let other = Pair::fresh(settings)?;
        same_number(
            "the merge's number",
            number(&called(mine.ours.clone().merge(&other.ours))),
            right,
        )?;
        mine.merge(&other)?;
    }
    let mut timed = Pair::fresh(TIMED)?;
    timed.merge(&Pair::fresh(Settings { epoch: 101, ..TIMED })?)
}

/// The most columns and the longest window, each beside the least of the other.
fn largest() -> Outcome {
    for settings in [
        Settings {
            rows: 8,
            cols: 65_536,
            t: 1,
            length: 3,
            ..SMALL
        },
        Settings {
            rows: 128,
            cols: 2,
            t: 1,
            ..SMALL
        },
        Settings {
            rows: 1,
            cols: 2,
            t: 4096,
            length: 1,
            ..SMALL
        },
    ] {
        let mut pair = Pair::fresh(settings)?;
        let key = vec![settings.cols - 1; settings.rows as usize];
        for _ in 0..7 {
            pair.update(&key)?;
            pair.read(&key)?;
        }
        pair.look(settings.rows as usize - 1, settings.cols as usize - 1)?;
        pair.agree_wholly()?;
    }
    Ok(())
}
