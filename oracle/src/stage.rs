//! Two sketches and the calls on them, each call a record of the file `sketches`.

use crate::judge::{self, Clock, Settings, Sketch};
use crate::write::{Out, Record};

const MAKE: u8 = 1;
const SET: u8 = 2;
const UPDATE: u8 = 3;
const UPDATE_AT: u8 = 4;
const ADVANCE: u8 = 5;
const READ: u8 = 6;
const READ_WITH: u8 = 7;
const MERGE: u8 = 8;
const MAX_ZOOM: u8 = 9;
const SET_GRID: u8 = 10;

/// Grids up to this size stand in the records; of larger ones only the digest does.
pub const SHOWN_GRID: usize = 200;

/// What a grid may take in bytes, slot by slot.
const ROOM: [u64; 2] = [524_288, 16_416];

pub struct Stage<'a> {
    pub out: &'a mut Out,
    slots: [Option<Sketch>; 2],
}

/// A call as it is recorded, but for what follows from the sketch it leaves.
#[derive(Default)]
struct Call {
    kind: u8,
    answer: u8,
    times: u32,
    argument: u64,
    words: Vec<u64>,
    columns: Vec<u16>,
    with_grid: bool,
}

/// The digest of a grid: a polynomial in 257 modulo the prime 2^55 − 55.
fn digest(grid: &[u8]) -> u64 {
    const PRIME: u64 = (1 << 55) - 55;
    grid.iter()
        .fold(0, |sum, &byte| (sum * 257 + byte as u64 + 1) % PRIME)
}

impl<'a> Stage<'a> {
    pub fn new(out: &'a mut Out) -> Self {
        Self {
            out,
            slots: [None, None],
        }
    }

    fn sketch(&mut self, slot: usize) -> &mut Sketch {
        self.slots[slot].as_mut().expect("a sketch was made here")
    }

    pub fn clock(&self, slot: usize) -> Clock {
        judge::clock(self.slots[slot].as_ref().expect("a sketch was made here"))
    }

    pub fn state(&self, slot: usize) -> u64 {
        judge::state(self.slots[slot].as_ref().expect("a sketch was made here"))
    }

    fn put(&mut self, slot: usize, state_before: u64, call: Call) {
        let sketch = self.slots[slot].as_ref().expect("a sketch was made here");
        let (clock, state, grid) = (
            judge::clock(sketch),
            judge::state(sketch),
            judge::grid(sketch),
        );
        let shown = if call.with_grid && grid.len() <= SHOWN_GRID {
            grid
        } else {
            &[]
        };
        let mut record = Record::default()
            .u8(call.kind)
            .u8(slot as u8)
            .u8(call.answer)
            .u8(call.words.len() as u8)
            .u16(call.columns.len() as u16)
            .u16(0)
            .u32(shown.len() as u32)
            .u32(call.times)
            .u64(call.argument)
            .u64(clock.n())
            .u64(clock.reading)
            .u64(state)
            .u64(judge::draws_between(state_before, state))
            .u64(digest(grid));
        for word in call.words {
            record = record.u64(word);
        }
        for column in call.columns {
            record = record.u16(column);
        }
        let record = record.bytes(shown);
        self.out.put(record);
    }

    pub fn make(&mut self, slot: usize, settings: &Settings) {
        assert!(settings.grid_bytes() <= ROOM[slot]);
        let sketch = settings.make();
        let state = judge::state(&sketch);
        self.slots[slot] = Some(sketch);
        let call = Call {
            kind: MAKE,
            words: vec![
                settings.rows as u64,
                settings.cols as u64,
                settings.t as u64,
                settings.c as u64,
                settings.timed as u64,
                settings.length,
                settings.epoch,
                settings.seed,
            ],
            ..Call::default()
        };
        self.put(slot, state, call);
    }

    /// Sets seen or now, and the random state.
    pub fn set(&mut self, slot: usize, reading: u64, state: u64) {
        judge::set(self.sketch(slot), reading, state);
        let call = Call {
            kind: SET,
            words: vec![reading, state],
            ..Call::default()
        };
        self.put(slot, state, call);
    }

    /// Sets the grid, one that the records show.
    pub fn set_grid(&mut self, slot: usize, grid: &[u8]) {
        assert!(grid.len() <= SHOWN_GRID);
        let state = self.state(slot);
        judge::set_grid(self.sketch(slot), grid);
        let call = Call {
            kind: SET_GRID,
            with_grid: true,
            ..Call::default()
        };
        self.put(slot, state, call);
    }

    /// Records the key `times` times.
    pub fn update(&mut self, slot: usize, columns: &[u16], times: u32) {
        let state = self.state(slot);
        for _ in 0..times {
            judge::update(self.sketch(slot), columns);
        }
        let call = Call {
            kind: UPDATE,
            times,
            columns: columns.to_vec(),
            with_grid: true,
            ..Call::default()
        };
        self.put(slot, state, call);
    }

    /// Records the key `times` times, all at `time`.
    pub fn update_at(&mut self, slot: usize, columns: &[u16], time: u64, times: u32) {
        let state = self.state(slot);
        let sketch = self.sketch(slot);
        let run = (0..times).try_for_each(|_| judge::update_at(sketch, columns, time));
        let call = Call {
            kind: UPDATE_AT,
            answer: run.err().unwrap_or(0),
            times,
            argument: time,
            columns: columns.to_vec(),
            with_grid: true,
            ..Call::default()
        };
        self.put(slot, state, call);
    }

    pub fn advance_to(&mut self, slot: usize, time: u64) {
        let state = self.state(slot);
        let run = judge::advance_to(self.sketch(slot), time);
        let call = Call {
            kind: ADVANCE,
            answer: run.err().unwrap_or(0),
            argument: time,
            with_grid: true,
            ..Call::default()
        };
        self.put(slot, state, call);
    }

    pub fn read(&mut self, slot: usize, columns: &[u16]) {
        let state = self.state(slot);
        let figures = judge::read(self.sketch(slot), columns);
        let call = Call {
            kind: READ,
            words: figures.to_vec(),
            columns: columns.to_vec(),
            ..Call::default()
        };
        self.put(slot, state, call);
    }

    pub fn read_with(&mut self, slot: usize, columns: &[u16], fraction: f64) {
        let state = self.state(slot);
        let argument = fraction.to_bits();
        let (answer, words) = match judge::read_with(self.sketch(slot), columns, argument) {
            Ok(figures) => (0, figures.to_vec()),
            Err(number) => (number, vec![]),
        };
        let call = Call {
            kind: READ_WITH,
            answer,
            argument,
            words,
            columns: columns.to_vec(),
            ..Call::default()
        };
        self.put(slot, state, call);
    }

    /// Merges the other slot's sketch into this one's.
    pub fn merge(&mut self, slot: usize) {
        let state = self.state(slot);
        let src = self.sketch(1 - slot).clone();
        let run = judge::merge_sketches(self.sketch(slot), &src);
        let other = digest(judge::grid(self.sketch(1 - slot)));
        let call = Call {
            kind: MERGE,
            answer: run.err().unwrap_or(0),
            words: vec![other],
            with_grid: true,
            ..Call::default()
        };
        self.put(slot, state, call);
    }

    pub fn max_zoom(&mut self, slot: usize) {
        let state = self.state(slot);
        let zoom = self.sketch(slot).max_zoom();
        let call = Call {
            kind: MAX_ZOOM,
            words: vec![zoom as u64],
            ..Call::default()
        };
        self.put(slot, state, call);
    }
}
