//! The file `sketches`.

use super::{Header, Input, Tally, within};
use crate::judge::{self, Settings, Sketch};

#[derive(Debug)]
enum Call {
    Make(Settings),
    Set {
        reading: u64,
        state: u64,
    },
    Update {
        columns: Vec<u16>,
        times: u32,
    },
    UpdateAt {
        columns: Vec<u16>,
        time: u64,
        times: u32,
    },
    Advance {
        time: u64,
    },
    Read {
        columns: Vec<u16>,
    },
    ReadWith {
        columns: Vec<u16>,
        fraction: u64,
    },
    Merge,
    MaxZoom,
    SetGrid {
        grid: Vec<u8>,
    },
}

#[derive(Debug, PartialEq)]
struct Answer {
    number: u8,
    /// What a reading, a merge or max_zoom gives; empty for the others.
    words: Vec<u64>,
    n: u64,
    reading: u64,
    state: u64,
    draws: u64,
    digest: u64,
    /// The grid, if the record shows it.
    grid: Option<Vec<u8>>,
}

struct Entry {
    slot: usize,
    call: Call,
    expected: Answer,
}

fn settings(words: &[u64]) -> Settings {
    Settings {
        rows: words[0] as u16,
        cols: words[1] as u32,
        t: words[2] as u16,
        c: words[3] as u16,
        timed: words[4] == 1,
        length: words[5],
        epoch: words[6],
        seed: words[7],
    }
}

fn decode(input: &mut Input) -> Result<Entry, String> {
    let header = Header(input.take(64)?);
    let slot = header.u8(1) as usize;
    let columns = header.u16(4) as usize;
    let shown = header.u32(8) as usize;
    let times = header.u32(12);
    let argument = header.u64(16);
    header.zeros(6, 2)?;
    within(slot < 2, "slot")?;
    within(header.u8(3) <= 8, "words")?;
    within(columns <= 128, "columns")?;
    within(shown <= 200, "grid bytes")?;
    within(times <= 2000, "times")?;
    let words = input.take(8 * header.u8(3) as usize)?;
    let words: Vec<u64> = words.chunks(8).map(|w| Header(w).u64(0)).collect();
    let columns = input.take(2 * columns)?;
    let columns: Vec<u16> = columns.chunks(2).map(|c| Header(c).u16(0)).collect();
    let grid = input.take(shown)?.to_vec();
    let given = matches!(header.u8(0), 1 | 2);
    let expected = Answer {
        number: header.u8(2),
        words: if given { vec![] } else { words.clone() },
        n: header.u64(24),
        reading: header.u64(32),
        state: header.u64(40),
        draws: header.u64(48),
        digest: header.u64(56),
        grid: (shown > 0).then(|| grid.clone()),
    };
    let call = match header.u8(0) {
        1 => Call::Make(settings(&words)),
        2 => Call::Set {
            reading: words[0],
            state: words[1],
        },
        3 => Call::Update { columns, times },
        4 => Call::UpdateAt {
            columns,
            time: argument,
            times,
        },
        5 => Call::Advance { time: argument },
        6 => Call::Read { columns },
        7 => Call::ReadWith {
            columns,
            fraction: argument,
        },
        8 => Call::Merge,
        9 => Call::MaxZoom,
        10 => Call::SetGrid { grid },
        kind => return Err(format!("kind {kind}")),
    };
    Ok(Entry {
        slot,
        call,
        expected,
    })
}

fn digest(grid: &[u8]) -> u64 {
    let mut sum = 0;
    for &byte in grid {
        sum = (sum * 257 + byte as u64 + 1) % 36_028_797_018_963_913;
    }
    sum
}

type Slots = [Option<Sketch>; 2];

fn sketch(slots: &mut Slots, slot: usize) -> Result<&mut Sketch, String> {
    slots[slot].as_mut().ok_or("no sketch was made here".into())
}

/// Runs the call; the number it was turned back with, or 0, and its words.
fn run(slots: &mut Slots, slot: usize, call: &Call) -> Result<(u8, Vec<u64>), String> {
    if let Call::Make(settings) = call {
        let room = [524_288, 16_416][slot];
        within(settings.grid_bytes() <= room, "grid")?;
        slots[slot] = Some(settings.make());
        return Ok((0, vec![]));
    }
    if let Call::Merge = call {
        let src = sketch(slots, 1 - slot)?.clone();
        let run = judge::merge_sketches(sketch(slots, slot)?, &src);
        let other = digest(judge::grid(sketch(slots, 1 - slot)?));
        return Ok((run.err().unwrap_or(0), vec![other]));
    }
    run_on(sketch(slots, slot)?, call)
}

/// A call on one sketch that is there.
fn run_on(sketch: &mut Sketch, call: &Call) -> Result<(u8, Vec<u64>), String> {
    let mut words = vec![];
    let mut turned_back = Ok(());
    match call {
        Call::Make(_) | Call::Merge => {}
        Call::Set { reading, state } => judge::set(sketch, *reading, *state),
        Call::Update { columns, times } => {
            (0..*times).for_each(|_| judge::update(sketch, columns));
        }
        Call::UpdateAt {
            columns,
            time,
            times,
        } => {
            turned_back = (0..*times).try_for_each(|_| judge::update_at(sketch, columns, *time));
        }
        Call::Advance { time } => turned_back = judge::advance_to(sketch, *time),
        Call::Read { columns } => words = judge::read(sketch, columns).to_vec(),
        Call::ReadWith { columns, fraction } => {
            turned_back = judge::read_with(sketch, columns, *fraction)
                .map(|figures| words = figures.to_vec());
        }
        Call::MaxZoom => words.push(sketch.max_zoom() as u64),
        Call::SetGrid { grid } => {
            within(grid.len() == judge::grid(sketch).len(), "grid bytes")?;
            judge::set_grid(sketch, grid);
        }
    }
    Ok((turned_back.err().unwrap_or(0), words))
}

fn perform(slots: &mut Slots, entry: &Entry) -> Result<Answer, String> {
    let before = slots[entry.slot].as_ref().map(judge::state);
    let (number, words) = run(slots, entry.slot, &entry.call)?;
    let sketch = sketch(slots, entry.slot)?;
    let state = judge::state(sketch);
    // A sketch that has just been made, or whose state was set, has drawn nothing.
    let from = match entry.call {
        Call::Make(_) | Call::Set { .. } => state,
        _ => before.unwrap_or(state),
    };
    let grid = judge::grid(sketch);
    Ok(Answer {
        number,
        words,
        n: judge::clock(sketch).n(),
        reading: judge::clock(sketch).reading,
        state,
        draws: judge::draws_between(from, state),
        digest: digest(grid),
        grid: entry.expected.grid.as_ref().map(|_| grid.to_vec()),
    })
}

pub fn replay(input: &mut Input, tally: &mut Tally) -> Result<(), String> {
    let mut slots: Slots = [None, None];
    while !input.bytes.is_empty() {
        let entry = decode(input)?;
        let came = perform(&mut slots, &entry)?;
        let place = (entry.slot, &entry.call);
        tally.compare(&place, &entry.expected, &came);
    }
    Ok(())
}
