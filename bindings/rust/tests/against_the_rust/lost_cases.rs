//! Document 02's T-04 worked by hand: cells and sketches at the ceiling of base 2, and one level below it.

use crate::cells::{self, Told};
use crate::held::{Held, sketch_of};
use crate::judge::{self, Settings};
use crate::layout;
use crate::losses;
use crate::pair::Pair;
use crate::plain_calls;
use crate::score::{Outcome, called, same};
use microscope::{Done, MicroCm, Refusal};

pub const ALL: [(&str, fn() -> Outcome); 5] = [
    ("units lost by an item", items),
    ("units lost by a closed shutter", closings),
    ("units cut off by a merge", cuts),
    ("units lost by sketches", sketches),
    ("refused where units would be lost", refused),
];

// ---- one cell, t = 1 and c = 2 ----

/// The items of a unit at 31, the ceiling of base 2, and one level below.
const UNIT: u32 = 1 << 31;
const HALF: u32 = 1 << 30;

/// Pixels, zoom and shutter.
type Cell = ([u8; 3], u8, u32);

/// A draw from this state is odd, so that it rounds a half down; one from the other is even, and rounds up.
const ODD: u64 = 1;
const EVEN: u64 = 2;

fn bytes((pixels, zoom, shutter): Cell) -> Vec<u8> {
    layout::from_theirs(1, judge::cell(1, 2, &pixels, zoom, shutter, 0))
}

fn told(cell: Cell, state: u64) -> Told {
    Told {
        t: 1,
        c: 2,
        cell: bytes(cell),
        state,
    }
}

fn items() -> Outcome {
    let each = [
        // Item 5 of the bench sheet.
        (([255, 0, 0], 31, UNIT - 1), 0, 1),
        (([255, 255, 255], 31, UNIT - 1), 1, 1),
        (([255, 0, 0], 31, UNIT - 1), 3, 1),
        // The unit is not full, the pixel has room, another one is full, or the zoom can rise.
        (([255, 0, 0], 31, UNIT - 2), 0, 0),
        (([254, 0, 0], 31, UNIT - 1), 0, 0),
        (([255, 0, 0], 31, UNIT - 1), 1, 0),
        (([255, 0, 0], 30, HALF - 1), 0, 0),
        (([255, 0, 0], 0, 0), 0, 0),
    ];
    for (cell, n, right) in each {
        same("units lost by an item", cells::insert(&told(cell, EVEN), n)?, right)?;
    }
    Ok(())
}

fn closings() -> Outcome {
    let each = [
        // Of 2^31 draws one alone rounds such a shutter the other way.
        (([255, 0, 0], 31, UNIT - 1), 1, 1, 1),
        (([255, 7, 7], 31, UNIT - 1), 2, 2, 1),
        (([0, 0, 255], 31, UNIT - 1), 3, 1, 1),
        (([255, 0, 0], 31, 1), 1, 1, 0),
        (([255, 0, 0], 31, 0), 1, 1, 0),
        // Full pixels that are cleared, all of them in a far jump, and a crossing of 0.
        (([0, 255, 255], 31, UNIT - 1), 2, 2, 0),
        (([255, 255, 255], 31, UNIT - 1), 3, 3, 0),
        (([255, 0, 0], 31, UNIT - 1), 1, 0, 0),
        // Room, or a zoom that can rise.
        (([254, 0, 0], 31, UNIT - 1), 1, 1, 0),
        (([255, 0, 0], 30, HALF - 1), 1, 1, 0),
    ];
    for (cell, n, crossed, right) in each {
        let lost = cells::enter(&told(cell, EVEN), n, crossed)?;
        same("units lost by a closed shutter", lost, right)?;
    }
    Ok(())
}

fn cuts() -> Outcome {
    let full = |zoom, shutter| ([255, 0, 0], zoom, shutter);
    let each = [
        (full(31, 0), full(31, 0), ODD, 255),
        (([255, 200, 7], 31, 0), ([1, 100, 7], 31, 0), ODD, 1 + 45),
        (([200, 55, 0], 31, 0), ([55, 200, 0], 31, 0), ODD, 0),
        // Two shutters that make a unit, and two that lack an item of it.
        (full(31, HALF), ([0, 0, 0], 31, HALF), ODD, 1),
        (full(31, HALF), ([0, 0, 0], 31, HALF - 1), ODD, 0),
        // A level lower, 255 is 127 or 128 here.
        (full(31, 0), full(30, 0), ODD, 127),
        (full(30, 0), full(31, 0), EVEN, 128),
        // The zoom rises: 510 is 255 then, and 511 is 255 or 256.
        (full(30, 0), full(30, 0), ODD, 0),
        (full(30, HALF / 2), full(30, HALF / 2), ODD, 0),
        (full(30, HALF / 2), full(30, HALF / 2), EVEN, 1),
        (full(29, 0), full(29, 0), EVEN, 0),
    ];
    for (dst, src, state, right) in each {
        let lost = cells::merge(&told(dst, state), 0, bytes(src))?;
        same("units cut off by a merge", lost, right)?;
    }
    Ok(())
}

// ---- sketches of three rows and two columns, t = 1 and c = 2 ----

const ITEMS: Settings = Settings {
    rows: 3,
    cols: 2,
    t: 1,
    c: 2,
    timed: false,
    length: 1_000,
    epoch: 0,
    seed: 1,
};

/// Every item crosses.
const SHORT: Settings = Settings { length: 1, ..ITEMS };

const TIMED: Settings = Settings {
    timed: true,
    length: 10,
    ..ITEMS
};

/// A grid in letters, a letter for each cell.
fn grid(letters: &str) -> Vec<u8> {
    let cell = |letter| match letter {
        // One item, or the end of the sub-window, and a unit is lost.
        'L' => ([255, 0, 0], 31, UNIT - 1),
        // Its shutter closes downwards.
        'd' => ([255, 0, 0], 31, 1),
        'f' => ([255, 0, 0], 31, 0),
        // It has room for one.
        'r' => ([254, 0, 0], 31, UNIT - 1),
        // It zooms out.
        'z' => ([255, 0, 0], 30, HALF - 1),
        _ => ([0, 0, 0], 0, 0),
    };
    letters.chars().flat_map(|letter| bytes(cell(letter))).collect()
}

#[derive(Clone, Copy, Debug)]
enum Call {
    Update(u32),
    UpdateAt(u32, u64),
    AdvanceTo(u64),
    Merge(&'static str),
}

fn key(column: u32) -> [u32; 3] {
    [column; 3]
}

fn held(settings: &Settings, letters: &str) -> Held {
    Held {
        sketch: sketch_of(settings, 0, EVEN),
        grid: grid(letters),
    }
}

fn pair(settings: Settings, letters: &str) -> Result<Pair, String> {
    Pair::loaded(settings, 0, EVEN, &grid(letters))
}

impl Call {
    /// With plain values: the number.
    fn plain(self, held: &Held, settings: &Settings) -> Result<u64, String> {
        let told = match self {
            Self::Update(column) => plain_calls::update(held, &key(column)),
            Self::UpdateAt(column, time) => plain_calls::update_at(held, &key(column), time),
            Self::AdvanceTo(time) => plain_calls::advance_to(held, time),
            Self::Merge(letters) => plain_calls::merge(held, &self::held(settings, letters)),
        };
        told.map(|(number, _)| number)
    }

    fn of_ours(self, ours: &mut MicroCm, settings: Settings) -> Result<Result<Done, Refusal>, String> {
        Ok(match self {
            Self::Update(column) => ours.update(&key(column)),
            Self::UpdateAt(column, time) => ours.update_at(&key(column), time),
            Self::AdvanceTo(time) => ours.advance_to(time),
            Self::Merge(letters) => ours.merge(&pair(settings, letters)?.ours),
        })
    }

    fn of_pair(self, mine: &mut Pair) -> Outcome {
        match self {
            Self::Update(column) => mine.update(&key(column)),
            Self::UpdateAt(column, time) => mine.update_at(&key(column), time),
            Self::AdvanceTo(time) => mine.advance_to(time),
            Self::Merge(letters) => mine.merge(&pair(mine.settings, letters)?),
        }
    }
}

/// A call that loses so many: by the plain calls and by the wrapper, each beside the Rust.
fn loses(settings: Settings, letters: &str, call: Call, right: u64) -> Outcome {
    same("the number", call.plain(&held(&settings, letters), &settings)?, 0)?;
    let mut mine = pair(settings, letters)?;
    let answer = called(call.of_ours(&mut mine.ours.clone(), settings)?);
    same("units lost", answer.map(|done| done.lost), Ok(right))?;
    call.of_pair(&mut mine)
}

fn sketches() -> Outcome {
    use Call::{AdvanceTo, Merge, Update, UpdateAt};
    let each = [
        (ITEMS, "L-L-L-", Update(0), 3),
        (ITEMS, "L-----", Update(0), 1),
        (ITEMS, "--L---", Update(0), 1),
        (ITEMS, "----L-", Update(0), 1),
        (ITEMS, "L---L-", Update(0), 2),
        (ITEMS, "-L-L-L", Update(0), 0),
        (ITEMS, "-L-L-L", Update(1), 3),
        (ITEMS, "LLrrzz", Update(0), 1),
        (ITEMS, "f-f-f-", Update(0), 0),
        // The item's drop leaves an empty shutter: what closes then are the other cells.
        (SHORT, "L-L-L-", Update(0), 3),
        (SHORT, "-L-L-L", Update(0), 3),
        (SHORT, "LLLLLL", Update(1), 6),
        (SHORT, "LLrrzz", Update(0), 2),
        (SHORT, "dddddd", Update(0), 0),
        (TIMED, "LLLLLL", UpdateAt(0, 9), 3),
        // All close, and the item is the first of a pixel that was cleared.
        (TIMED, "LLLLLL", UpdateAt(0, 10), 6),
        (TIMED, "-L-LL-", UpdateAt(0, 20), 3),
        (TIMED, "LLLLLL", UpdateAt(0, 30), 0),
        (TIMED, "LLLLLL", AdvanceTo(9), 0),
        (TIMED, "LLLLLL", AdvanceTo(10), 6),
        (TIMED, "LdfrzL", AdvanceTo(10), 2),
        (TIMED, "LLLLLL", AdvanceTo(30), 0),
        (ITEMS, "ffffff", Merge("ffffff"), 6 * 255),
        (ITEMS, "f-----", Merge("-f---f"), 0),
        (ITEMS, "f-f---", Merge("rff---"), 254 + 255),
        (TIMED, "-----L", Merge("-----L"), 256),
    ];
    for (settings, letters, call, right) in each {
        loses(settings, letters, call, right).map_err(|what| format!("{what}; {letters}, {call:?}, {settings:?}"))?;
    }
    Ok(())
}

/// A number, and what a sketch is refused by it for.
type Spoilt = (u64, fn(&mut Held));

/// What loses units is refused once something is wrong, and then tells none.
fn refused() -> Outcome {
    use Call::{AdvanceTo, Merge, Update, UpdateAt};
    let spoilt: [Spoilt; 6] = [
        (1, |held| held.sketch.t = 0),
        (2, |held| held.sketch.c = 257),
        (4, |held| held.sketch.rows = 0),
        (5, |held| held.sketch.state = 0),
        (6, |held| held.grid.push(0)),
        (14, |held| held.grid[layout::zoom_of(1, 0)] = 32),
    ];
    let calls = [
        (SHORT, Update(0)),
        (TIMED, UpdateAt(0, 10)),
        (TIMED, AdvanceTo(10)),
        (ITEMS, Merge("LLLLLL")),
    ];
    for (settings, call) in calls {
        for (right, spoil) in spoilt {
            let mut held = held(&settings, "LLLLLL");
            spoil(&mut held);
            same("the number", call.plain(&held, &settings)?, right)?;
            losses::refused();
        }
    }
    let others = [
        (ITEMS, Update(2), 7),
        (TIMED, UpdateAt(2, 10), 7),
        (TIMED, Update(0), 8),
        (ITEMS, UpdateAt(0, 10), 8),
        (ITEMS, AdvanceTo(10), 8),
    ];
    for (settings, call, right) in others {
        same("the number", call.plain(&held(&settings, "LLLLLL"), &settings)?, right)?;
        losses::refused();
    }
    refused_merges()?;
    refused_cells()
}

/// Two sketches that do not meet.
fn refused_merges() -> Outcome {
    let spoilt: [Spoilt; 3] = [
        (10, |other| other.sketch.c = 3),
        (11, |other| other.sketch.length = 999),
        (12, |other| other.sketch.reading = 1_000),
    ];
    for (right, spoil) in spoilt {
        let mut other = held(&ITEMS, "LLLLLL");
        spoil(&mut other);
        let (number, _) = plain_calls::merge(&held(&ITEMS, "LLLLLL"), &other)?;
        same("the number", number, right)?;
        losses::refused();
    }
    Ok(())
}

fn refused_cells() -> Outcome {
    let spoilt: [fn(&mut Told); 5] = [
        |told| told.t = 0,
        |told| told.c = 1,
        |told| told.state = 0,
        |told| told.cell.push(0),
        |told| told.cell[3] = 32,
    ];
    let full = ([255, 0, 0], 31, UNIT - 1);
    for spoil in spoilt {
        let mut told = told(full, EVEN);
        spoil(&mut told);
        let lost = [
            cells::insert(&told, 0)?,
            cells::enter(&told, 1, 1)?,
            cells::merge(&told, 0, bytes(full))?,
        ];
        same("units lost by a refusal", lost, [0; 3])?;
        losses::refused();
    }
    // More sub-windows than there were.
    same("units lost by 9", cells::enter(&told(full, EVEN), 0, 1)?, 0)
}
