//! The file `cells`.

use super::{Header, Input, Tally, within};
use crate::judge;

/// A record as it stands in the file.
#[derive(Debug)]
struct Call {
    kind: u8,
    t: u16,
    c: u16,
    a: u64,
    b: u64,
    state: u64,
    cell: Vec<u8>,
    src: Vec<u8>,
}

#[derive(Debug, PartialEq)]
enum Answer {
    Cell {
        cell: Vec<u8>,
        state: u64,
        draws: u64,
    },
    Layout {
        depth: u16,
        pixels: u64,
        max_zoom: u64,
    },
    Fields {
        zoom: u64,
        shutter: u64,
        scaled: u64,
    },
}

/// Cells that follow a header, by kind.
fn cells_of(kind: u8) -> Result<u8, String> {
    match kind {
        1 | 2 => Ok(2),
        3 => Ok(3),
        4 => Ok(0),
        5 => Ok(1),
        _ => Err(format!("kind {kind}")),
    }
}

fn decode(input: &mut Input) -> Result<(Call, Answer), String> {
    let header = Header(input.take(48)?);
    let (kind, cells) = (header.u8(0), header.u8(1));
    let (t, c, depth) = (header.u16(2), header.u16(4), header.u16(6));
    header.zeros(12, 4)?;
    within(cells == cells_of(kind)?, "cells")?;
    within((1..=4096).contains(&t) && (2..=256).contains(&c), "t, c")?;
    within(depth <= 4104, "depth")?;
    let mut next = |there: bool| {
        let length = if there { depth as usize } else { 0 };
        input.take(length).map(<[u8]>::to_vec)
    };
    let call = Call {
        kind,
        t,
        c,
        a: header.u64(16),
        b: header.u64(24),
        state: header.u64(32),
        cell: next(cells >= 1)?,
        src: next(cells >= 3)?,
    };
    let cell = next(cells >= 2)?;
    let answer = match kind {
        4 => Answer::Layout {
            depth,
            pixels: call.a,
            max_zoom: call.b,
        },
        5 => Answer::Fields {
            zoom: header.u64(32),
            shutter: header.u64(40),
            scaled: call.b,
        },
        _ => Answer::Cell {
            cell,
            state: header.u64(40),
            draws: header.u32(8) as u64,
        },
    };
    Ok((call, answer))
}

fn perform(call: &Call) -> Answer {
    let Call { t, c, state, .. } = *call;
    let (a, cell) = (call.a, call.cell.as_slice());
    let after = match call.kind {
        1 => judge::insert(t, c, a, state, cell),
        2 => judge::enter(t, c, a, call.b, state, cell),
        3 => judge::merge(t, c, a, state, cell, &call.src),
        4 => {
            return Answer::Layout {
                depth: judge::depth(t),
                pixels: judge::pixels(t) as u64,
                max_zoom: judge::max_zoom(c) as u64,
            };
        }
        _ => {
            let (zoom, shutter, scaled) = judge::fields(t, c, a, cell);
            let (zoom, shutter) = (zoom as u64, shutter as u64);
            return Answer::Fields {
                zoom,
                shutter,
                scaled,
            };
        }
    };
    Answer::Cell {
        cell: after.cell,
        state: after.state,
        draws: after.draws,
    }
}

pub fn replay(input: &mut Input, tally: &mut Tally) -> Result<(), String> {
    while !input.bytes.is_empty() {
        let (call, expected) = decode(input)?;
        tally.compare(&call, &expected, &perform(&call));
    }
    Ok(())
}
