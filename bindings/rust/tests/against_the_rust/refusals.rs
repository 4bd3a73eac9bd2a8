//! Each cause of a refusal by itself, with its number worked out by hand.

use crate::damage;
use crate::directed::SMALL;
use crate::held::{Held, WIDE};
use crate::junk;
use crate::layout;
use crate::numbers;
use crate::pair::{Pair, make};
use crate::plain_calls;
use crate::plain_readings;
use crate::score::{Outcome, called, number, same, same_number};
use crate::stores;
use microscope::calls::{self, Shape, Sketch};
use microscope::{MicroCm, MicroParams, Refusal, SubWindowClock};

pub const ALL: [(&str, fn() -> Outcome); 6] = [
    ("settings refused", settings_refused),
    ("stores refused", stores_refused),
    ("shapes of stores", shapes),
    ("errors in words", words),
    ("the header's names and words", as_in_header),
    ("the version", version),
];

fn settings_refused() -> Outcome {
    let params = |t, c| MicroParams { t, c };
    let count = SubWindowClock::count_based;
    let cases = [
        (1, 1, 2, params(0, 0), count(0)),
        (1, 1, 2, params(4097, 2), count(1)),
        (2, 1, 2, params(1, 1), count(0)),
        (2, 1, 2, params(4096, 257), count(1)),
        (3, 0, 0, params(1, 2), count(0)),
        (3, 1, 2, params(1, 2), SubWindowClock::time_based((1 << 53) + 1, 0)),
        (4, 0, 2, params(1, 2), count(1)),
        (4, 1, 1, params(1, 2), count(1)),
        (4, 1, 3, params(1, 2), count(1)),
        (4, 1, 131_072, params(1, 2), count(1)),
        (4, 9, 65_536, params(4096, 2), count(1)),
        (4, usize::MAX, usize::MAX, params(1, 2), count(1)),
        (4, 1 << 63, 2, params(1, 2), count(1)),
    ];
    for (right, rows, cols, params, clock) in cases {
        let answer = called(MicroCm::with_dimensions(rows, cols, params, clock, 1));
        same_number("the fresh start's number", number(&answer), right)?;
    }
    for kind in [2, 3, 1 << 31, u32::MAX as u64, WIDE, WIDE + 1, u64::MAX] {
        plain_refused(|sketch| sketch.kind = kind, 3)?;
    }
    for c in [0, 1, 257, u32::MAX as u64, WIDE, WIDE + 2, u64::MAX] {
        plain_refused(|sketch| sketch.c = c, 2)?;
    }
    plain_refused(|sketch| sketch.t = WIDE + 1, 1)?;
    plain_refused(|sketch| sketch.rows = WIDE + 1, 4)?;
    plain_refused(|sketch| sketch.cols = WIDE + 2, 4)
}

/// A sketch of words that no sketch has is refused by this number, when it is to be made and when it is handed over.
fn plain_refused(spoil: impl Fn(&mut Sketch), right: u64) -> Outcome {
    let sketch = make(&SMALL).map_err(|why| why.to_string())?.plain();
    let mut held = Held {
        grid: vec![junk::BYTE; numbers::grid_bytes(&sketch)],
        sketch,
    };
    spoil(&mut held.sketch);
    for told in [
        plain_calls::start(&held, 1),
        plain_readings::store_length(&held),
        plain_calls::update(&held, &[0, 0]),
        plain_readings::audit(&held),
    ] {
        same_number("the number of such a sketch", told?.0, right)?;
    }
    Ok(())
}

/// Each cause of a load's own order by itself.
fn stores_refused() -> Outcome {
    let good = Pair::fresh(SMALL)?.ours;
    let (header, grid) = (stores::header(&SMALL, 0, 7), good.grid().to_vec());
    let bytes = grid.len();
    let store = stores::of_payloads(&header, &grid);
    damage::refused(&store, bytes, 0)?;
    damage::refused(&store, bytes - 1, 6)?;
    damage::refused(&[], bytes, 16)?;
    damage::refused(&store[..511], bytes, 16)?;
    damage::refused(&store[..512], bytes, 16)?;
    damage::refused(&stores::of_payloads(&header, &[0; 505]), bytes, 16)?;
    damage::refused(&[&store[512..], &store[..512]].concat(), bytes, 17)?;
    damage::refused(&stores::of_payloads(&header, &[&grid[..], &[1]].concat()), bytes, 18)?;
    let mut unsound = grid.clone();
    unsound[layout::zoom_of(SMALL.t as u64, 5)] = 32;
    damage::refused(&stores::of_payloads(&header, &unsound), bytes, 14)?;
    let index = MicroCm::load(&stores::of_payloads(&header, &unsound))
        .err()
        .and_then(|why| why.index());
    same("the unsound cell", index, Some(5))?;
    // At this byte of the header this value.
    let fields = [
        (0, 2, 18),
        (4, 0, 4),
        (8, 3, 4),
        (12, 0, 1),
        (16, 1, 2),
        (20, 2, 18),
        (32, 1, 18),
        (48, 0, 5),
        (4, 11, 16),
    ];
    for (at, value, right) in fields {
        let mut other = header.clone();
        other[at] = value;
        damage::refused(&stores::of_payloads(&other, &grid), bytes, right)?;
    }
    let mut other = header.clone();
    other[24..32].fill(0);
    damage::refused(&stores::of_payloads(&other, &grid), bytes, 3)?;
    other = header;
    other.resize(504, 0);
    other[503] = 1;
    damage::refused(&stores::of_payloads(&other, &grid), bytes, 18)
}

/// A shape is told of every store that is whole, also of one that a load refuses for its cells or for what is behind them.
fn shapes() -> Outcome {
    let header = stores::header(&SMALL, 0, 7);
    let mut grid = vec![0; 96];
    let good = stores::of_payloads(&header, &grid);
    let behind = stores::of_payloads(&header, &[&grid[..], &[1]].concat());
    grid[layout::zoom_of(SMALL.t as u64, 5)] = 32;
    let unsound = stores::of_payloads(&header, &grid);
    for (store, load) in [(&good, 0), (&behind, 18), (&unsound, 14)] {
        let mut shape = junk::SHAPE;
        same(
            "the shape's answer",
            called(calls::store_shape(store, &mut shape)),
            Ok(()),
        )?;
        let right = Shape {
            rows: 2,
            cols: 4,
            t: 2,
            c: 2,
            grid_bytes: 96,
        };
        same("the shape", shape, right)?;
        damage::refused(store, 96, load)?;
    }
    let mut broken = good.clone();
    broken[700] ^= 1;
    let refused = [
        (&good[..511], 16),
        (&good[..512], 16),
        (&good[512..], 17),
        (&broken, 17),
        (&[], 16),
    ];
    for (store, right) in refused {
        let mut shape = junk::SHAPE;
        let answer = called(calls::store_shape(store, &mut shape));
        same_number("the shape's number", number(&answer), right)?;
        same("the shape of a refusal", shape, Shape::default())?;
    }
    Ok(())
}

fn words() -> Outcome {
    let mut ours = make(&SMALL).map_err(|why| why.to_string())?;
    let told = called(ours.update(&[0])).map_err(|why| why.to_string());
    same(
        "7 in words",
        told,
        Err("refused by 7: not one column a row, or a row or column out of range".into()),
    )?;
    let mut unsound = ours.grid().to_vec();
    unsound[layout::zoom_of(SMALL.t as u64, 5)] = 32;
    let store = stores::encode(&SMALL, 0, 7, &unsound);
    let told = called(MicroCm::load(&store)).map_err(|why| why.to_string());
    same("14 in words", told, Err("refused by 14: unsound cell 5".into()))?;
    let told = called(ours.set_codes(&[0; 130], &[1; 65])).map_err(|why| why.to_string());
    same("19 in words", told, Err("refused by 19: more than 64 codes".into()))?;
    called(ours.set_codes(&[0, 0], &[1])).map_err(|why| why.to_string())?;
    let told = called(ours.ask_into(&mut [])).map_err(|why| why.to_string());
    let short = "refused by 20: the list has less room than there are codes";
    same("20 in words", told, Err(short.into()))
}

/// In the order of their numbers, from 1 on.
const REFUSALS: [Refusal; 20] = [
    Refusal::T,
    Refusal::C,
    Refusal::Length,
    Refusal::Dimensions,
    Refusal::State,
    Refusal::Bytes,
    Refusal::Columns,
    Refusal::ClockKind,
    Refusal::Crossed,
    Refusal::Shapes,
    Refusal::Frames,
    Refusal::SubWindows,
    Refusal::Fraction,
    Refusal::Unsound { index: 0 },
    Refusal::Divisor,
    Refusal::StoreLength,
    Refusal::Block,
    Refusal::Form,
    Refusal::Codes,
    Refusal::List,
];

static HEADER: &str = include_str!("../../../../include/microscope.h");

/// A refusal's name as the header has it, but for its index and the header's low lines: `ClockKind` is `CLOCKKIND`.
fn name(refusal: Refusal) -> String {
    let name = format!("{refusal:?}");
    name.split(' ').next().unwrap_or_default().to_uppercase()
}

/// Every refusal has the number, the name and the words that the header gives it.
fn as_in_header() -> Outcome {
    let (_, cases) = HEADER
        .split_once("    case MICROSCOPE_ACCEPTED:")
        .ok_or("no words in the header")?;
    let (cases, _) = cases.split_once("    default:").ok_or("no end of the words")?;
    let cases: Vec<&str> = cases.split("    case MICROSCOPE_").skip(1).collect();
    same("how many words there are", cases.len(), REFUSALS.len())?;
    for ((case, refusal), number) in cases.into_iter().zip(REFUSALS).zip(1..) {
        let (enumerator, words) = case.split_once(":\n        return ").ok_or("a case without words")?;
        same("the words", words, &format!("\"{}\";\n", refusal.meaning()))?;
        same("the name", name(refusal), enumerator.replace('_', ""))?;
        same("the number", refusal.number(), number)?;
        let enumerated = HEADER.contains(&format!("    MICROSCOPE_{enumerator} = {number}"));
        same("whether the header numbers it so", enumerated, true)?;
    }
    Ok(())
}

/// The library goes with the wrapper, and the wrapper with the header.
fn version() -> Outcome {
    same("the version of the library", called(calls::version()), calls::VERSION)?;
    let right = format!("#define MICROSCOPE_VERSION {}\n", calls::VERSION);
    same("whether the header has it", HEADER.contains(&right), true)
}
