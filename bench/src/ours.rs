//! Our calls, as include/microscope.h declares them.

use crate::beside::Cells;
use crate::plain::{Asked, Change, Figures, Found, ITEMS, Items, KEPT_COLUMNS, MOST_CODES, Sketch, TIME, Value, Watch};

unsafe extern "C" {
    fn microscope_new(sketch: *mut Sketch, watch: *mut Watch, rows: u64, cols: u64, t: u64, c: u64, kind: u64, length: u64, epoch: u64, seed: u64, grid: *mut u8, grid_bytes: usize) -> u64;
    fn microscope_update(sketch: *mut Sketch, key: *const u32, columns: usize, grid: *mut u8, grid_bytes: usize, change: *mut Change) -> u64;
    fn microscope_update_at(sketch: *mut Sketch, key: *const u32, columns: usize, timestamp: u64, grid: *mut u8, grid_bytes: usize, change: *mut Change) -> u64;
    fn microscope_advance_to(sketch: *mut Sketch, timestamp: u64, grid: *mut u8, grid_bytes: usize, change: *mut Change) -> u64;
    fn microscope_merge(sketch: *mut Sketch, grid: *mut u8, grid_bytes: usize, other: *const Sketch, other_grid: *const u8, other_grid_bytes: usize, change: *mut Change) -> u64;
    fn microscope_estimate(sketch: *const Sketch, key: *const u32, columns: usize, grid: *const u8, grid_bytes: usize, figures: *mut Figures, items: *mut Items) -> u64;
    fn microscope_mean(sketch: *const Sketch, key: *const u32, columns: usize, grid: *const u8, grid_bytes: usize, mean: *mut Value) -> u64;
    fn microscope_audit(sketch: *const Sketch, grid: *const u8, grid_bytes: usize, found: *mut Found) -> u64;
    fn microscope_store_length(sketch: *const Sketch, length: *mut u64) -> u64;
    fn microscope_save(sketch: *const Sketch, grid: *const u8, grid_bytes: usize, store: *mut u8, store_bytes: usize, index: *mut u64) -> u64;
    fn microscope_load(sketch: *mut Sketch, watch: *mut Watch, grid: *mut u8, grid_bytes: usize, store: *const u8, store_bytes: usize, index: *mut u64) -> u64;
    fn microscope_set_codes(sketch: *const Sketch, watch: *mut Watch, columns: *const u32, column_count: usize, limits: *const u64, limit_count: usize, kept_columns: *mut [u32; KEPT_COLUMNS], kept_limits: *mut [u64; MOST_CODES]) -> u64;
    fn microscope_ask(sketch: *const Sketch, watch: *mut Watch, kept_columns: *const [u32; KEPT_COLUMNS], kept_limits: *const [u64; MOST_CODES], grid: *const u8, grid_bytes: usize, list: *mut u8, list_bytes: usize, asked: *mut Asked) -> u64;
    fn microscope_depth(t: u64, c: u64, depth: *mut u64) -> u64;
}

/// A sketch with its grid. A refused call stops the benchmark: none of its calls is one to refuse.
#[derive(Clone)]
pub struct Ours {
    pub sketch: Sketch,
    pub grid: Vec<u8>,
}

/// Watched codes.
pub struct Codes {
    watch: Watch,
    columns: Box<[u32; KEPT_COLUMNS]>,
    limits: Box<[u64; MOST_CODES]>,
}

impl Codes {
    pub fn none() -> Self {
        Self { watch: Watch::default(), columns: Box::new([0; KEPT_COLUMNS]), limits: Box::new([0; MOST_CODES]) }
    }
}

/// What a reading tells.
pub struct Reading {
    pub figures: Figures,
    pub items: Items,
}

fn accepted(number: u64) {
    assert_eq!(number, 0, "refused");
}

fn depth(t: u64, c: u64) -> usize {
    let mut depth = 0;
    accepted(unsafe { microscope_depth(t, c, &mut depth) });
    depth as usize
}

impl Ours {
    pub fn new(rows: usize, cols: usize, t: usize, c: u32, timed: bool, length: u64, seed: u64) -> Self {
        let (t, c) = (t as u64, c as u64);
        let (mut sketch, mut watch) = (Sketch::default(), Watch::default());
        let mut grid = vec![0; rows * cols * depth(t, c)];
        let kind = if timed { TIME } else { ITEMS };
        accepted(unsafe {
            microscope_new(&mut sketch, &mut watch, rows as u64, cols as u64, t, c, kind, length, 0, seed, grid.as_mut_ptr(), grid.len())
        });
        Self { sketch, grid }
    }

    pub fn cells(&self) -> Cells<'_> {
        Cells { bytes: &self.grid, depth: depth(self.sketch.t, self.sketch.c) }
    }

    pub fn update(&mut self, key: &[u32]) {
        let mut change = Change::default();
        accepted(unsafe { microscope_update(&mut self.sketch, key.as_ptr(), key.len(), self.grid.as_mut_ptr(), self.grid.len(), &mut change) });
    }

    pub fn update_at(&mut self, key: &[u32], timestamp: u64) {
        let mut change = Change::default();
        accepted(unsafe {
            microscope_update_at(&mut self.sketch, key.as_ptr(), key.len(), timestamp, self.grid.as_mut_ptr(), self.grid.len(), &mut change)
        });
    }

    pub fn advance_to(&mut self, timestamp: u64) {
        let mut change = Change::default();
        accepted(unsafe { microscope_advance_to(&mut self.sketch, timestamp, self.grid.as_mut_ptr(), self.grid.len(), &mut change) });
    }

    pub fn merge(&mut self, other: &Self) {
        let mut change = Change::default();
        accepted(unsafe {
            microscope_merge(&mut self.sketch, self.grid.as_mut_ptr(), self.grid.len(), &other.sketch, other.grid.as_ptr(), other.grid.len(), &mut change)
        });
    }

    pub fn estimate(&self, key: &[u32]) -> Reading {
        let (mut figures, mut items) = (Figures::default(), Items::default());
        accepted(unsafe {
            microscope_estimate(&self.sketch, key.as_ptr(), key.len(), self.grid.as_ptr(), self.grid.len(), &mut figures, &mut items)
        });
        Reading { figures, items }
    }

    pub fn mean(&self, key: &[u32]) -> u64 {
        let mut mean = Value::default();
        accepted(unsafe { microscope_mean(&self.sketch, key.as_ptr(), key.len(), self.grid.as_ptr(), self.grid.len(), &mut mean) });
        mean.value
    }

    pub fn audit(&self) -> u64 {
        let mut found = Found::default();
        accepted(unsafe { microscope_audit(&self.sketch, self.grid.as_ptr(), self.grid.len(), &mut found) });
        found.unsound
    }

    pub fn store(&self) -> Vec<u8> {
        let mut length = 0;
        accepted(unsafe { microscope_store_length(&self.sketch, &mut length) });
        vec![0; length as usize]
    }

    pub fn save(&self, store: &mut [u8]) {
        let mut index = 0;
        accepted(unsafe { microscope_save(&self.sketch, self.grid.as_ptr(), self.grid.len(), store.as_mut_ptr(), store.len(), &mut index) });
    }

    pub fn load(&mut self, store: &[u8]) {
        let (mut watch, mut index) = (Watch::default(), 0);
        accepted(unsafe {
            microscope_load(&mut self.sketch, &mut watch, self.grid.as_mut_ptr(), self.grid.len(), store.as_ptr(), store.len(), &mut index)
        });
    }

    pub fn set_codes(&self, codes: &mut Codes, columns: &[u32], limits: &[u64]) {
        let Codes { watch, columns: kept, limits: kept_limits } = codes;
        accepted(unsafe {
            microscope_set_codes(&self.sketch, watch, columns.as_ptr(), columns.len(), limits.as_ptr(), limits.len(), &mut **kept, &mut **kept_limits)
        });
    }

    pub fn ask(&self, codes: &mut Codes, list: &mut [u8]) -> usize {
        let mut asked = Asked::default();
        accepted(unsafe {
            microscope_ask(&self.sketch, &mut codes.watch, &*codes.columns, &*codes.limits, self.grid.as_ptr(), self.grid.len(), list.as_mut_ptr(), list.len(), &mut asked)
        });
        asked.listed as usize
    }
}
