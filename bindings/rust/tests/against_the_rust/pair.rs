//! A sketch of ours and one of the published Rust's that are told the same and must stay the same.

use crate::held;
use crate::judge::{self, Settings};
use crate::layout;
use crate::lost::Units;
use crate::lost_walk;
use crate::means;
use crate::score::{Outcome, called, number, same, same_bytes, same_number, unchanged_one};
use crate::stores;
use microscope::{Done, MicroCm, MicroParams, Refusal, SubWindowClock};

/// Grids up to this size are compared after each call; of larger ones every 64th call, and always at the end.
const SMALL: usize = 8192;

pub struct Pair {
    pub settings: Settings,
    pub ours: MicroCm,
    pub theirs: judge::Sketch,
    /// Our grid at the beginning; its pads stay.
    begun: Vec<u8>,
    /// Bytes that ours holds for codes, of which theirs has none.
    pub code_bytes: usize,
    looked: u64,
}

pub fn clock_of(settings: &Settings) -> SubWindowClock {
    if settings.timed {
        SubWindowClock::time_based(settings.length, settings.epoch)
    } else {
        SubWindowClock::count_based(settings.length)
    }
}

pub fn make(settings: &Settings) -> Result<MicroCm, Refusal> {
    let params = MicroParams {
        t: settings.t as usize,
        c: settings.c as u32,
    };
    let (rows, cols) = (settings.rows as usize, settings.cols as usize);
    called(MicroCm::with_dimensions(
        rows,
        cols,
        params,
        clock_of(settings),
        settings.seed,
    ))
}

/// The columns as the Rust's side takes them. A key that does not fit is never handed to it.
pub fn narrow(key: &[u32]) -> Vec<u16> {
    key.iter().map(|&column| column as u16).collect()
}

impl Pair {
    pub fn fresh(settings: Settings) -> Result<Self, String> {
        let ours = make(&settings).map_err(|why| why.to_string())?;
        let grid = vec![0; ours.grid().len()];
        Self::begin(settings, ours, settings.make(), grid)
    }

    /// A sketch in the middle of its life: ours comes from a store that the test wrote.
    pub fn loaded(settings: Settings, reading: u64, state: u64, grid: &[u8]) -> Result<Self, String> {
        let mut theirs = settings.make();
        judge::set(&mut theirs, reading, state);
        judge::set_grid(&mut theirs, &layout::to_theirs(settings.t as u64, grid));
        let store = stores::encode(&settings, reading, state, grid);
        let ours = called(MicroCm::load(&store)).map_err(|why| why.to_string())?;
        Self::begin(settings, ours, theirs, grid.to_vec())
    }

    /// Both begin, ours with this grid.
    fn begin(settings: Settings, ours: MicroCm, theirs: judge::Sketch, begun: Vec<u8>) -> Result<Self, String> {
        let mut pair = Self {
            settings,
            ours,
            theirs,
            begun,
            code_bytes: 0,
            looked: 0,
        };
        pair.agree_wholly()?;
        Ok(pair)
    }

    /// Whether one column a row is there, each below cols.
    pub fn fits(&self, key: &[u32]) -> bool {
        key.len() == self.ours.rows() && key.iter().all(|&column| (column as usize) < self.ours.cols())
    }

    pub fn update(&mut self, key: &[u32]) -> Outcome {
        let refusal = if self.fits(key) {
            8 * self.settings.timed as u64
        } else {
            7
        };
        self.told(
            |ours| ours.update(key),
            refusal,
            |theirs| lost_walk::update(theirs, &narrow(key)),
        )
    }

    pub fn update_at(&mut self, key: &[u32], time: u64) -> Outcome {
        let refusal = if self.fits(key) {
            8 * !self.settings.timed as u64
        } else {
            7
        };
        self.told(
            |ours| ours.update_at(key, time),
            refusal,
            |theirs| lost_walk::update_at(theirs, &narrow(key), time),
        )
    }

    pub fn advance_to(&mut self, time: u64) -> Outcome {
        let refusal = 8 * !self.settings.timed as u64;
        self.told(
            |ours| ours.advance_to(time),
            refusal,
            |theirs| lost_walk::advance_to(theirs, time),
        )
    }

    pub fn merge(&mut self, other: &Pair) -> Outcome {
        let (watch, others) = (self.ours.watch(), (other.ours.plain(), other.ours.watch()));
        let answer = called(self.ours.merge(&other.ours));
        let before = judge::state(&self.theirs);
        let right = lost_walk::merge_sketches(&mut self.theirs, &other.theirs)?;
        same_number("the merge's number", number(&answer), right.err().unwrap_or(0) as u64)?;
        same("the codes beside a merge", self.ours.watch(), watch)?;
        unchanged_one(
            "the sketch merged from",
            &(other.ours.plain(), other.ours.watch()),
            &others,
        )?;
        self.did(answer, before, right.unwrap_or(0))?;
        other.equal_grids()
    }

    /// The Rust is called only if ours is to accept.
    fn told(
        &mut self,
        ours: impl FnOnce(&mut MicroCm) -> Result<Done, Refusal>,
        refusal: u64,
        theirs: impl FnOnce(&mut judge::Sketch) -> Units,
    ) -> Outcome {
        let watch = self.ours.watch();
        let answer = called(ours(&mut self.ours));
        same_number("the number", number(&answer), refusal)?;
        same("the codes beside a call", self.ours.watch(), watch)?;
        let before = judge::state(&self.theirs);
        let lost = if refusal == 0 { theirs(&mut self.theirs)? } else { 0 };
        self.did(answer, before, lost)
    }

    /// After a refusal all is looked at, also a large grid.
    fn did(&mut self, answer: Result<Done, Refusal>, before: u64, lost: u64) -> Outcome {
        let draws = judge::draws_between(before, judge::state(&self.theirs));
        same("draws and units lost", answer.unwrap_or_default(), Done { draws, lost })?;
        match answer {
            Ok(_) => self.agree(),
            Err(_) => self.agree_wholly(),
        }
    }

    pub fn read(&self, key: &[u32]) -> Outcome {
        let answer = called(self.ours.estimate(key));
        let mean = called(self.ours.mean(key));
        if !self.fits(key) {
            same_number("the reading's number", number(&answer), 7)?;
            return same_number("the mean's number", number(&mean), 7);
        }
        let reading = answer.map_err(|why| why.to_string())?;
        let right = judge::read(&self.theirs, &narrow(key));
        self.figures(&reading, right)?;
        let n = self.theirs.sub_window();
        same("mean", mean, Ok(means::reckoned(right, n, self.settings.t as u64)))
    }

    pub fn read_with(&self, key: &[u32], fraction: f64) -> Outcome {
        let answer = called(self.ours.estimate_with(key, fraction));
        if !self.fits(key) {
            return same_number("the reading's number", number(&answer), 7);
        }
        let right = judge::read_with(&self.theirs, &narrow(key), fraction.to_bits());
        same_number("the reading's number", number(&answer), right.err().unwrap_or(0) as u64)?;
        match (answer, right) {
            (Ok(reading), Ok(figures)) => self.figures(&reading, figures),
            _ => Ok(()),
        }
    }

    fn figures(&self, reading: &microscope::Reading, right: judge::Figures) -> Outcome {
        let figures = [reading.over, reading.under, reading.linear, reading.fraction];
        same("figures", figures.map(f64::to_bits), right)?;
        let items = [reading.over_items, reading.under_items];
        same(
            "figures in items",
            items.map(|n| n as f64),
            [reading.over, reading.under],
        )
    }

    /// What a sketch tells of itself.
    pub fn look(&self, row: usize, col: usize) -> Outcome {
        let (ours, theirs) = (&self.ours, &self.theirs);
        same("rows", called(ours.rows()), theirs.rows())?;
        same("cols", called(ours.cols()), theirs.cols())?;
        let params = theirs.params();
        same(
            "t and c",
            called((ours.params().t, ours.params().c)),
            (params.t, params.c),
        )?;
        let depth = layout::right_depth(params.t as u64);
        same("bytes a cell", called(ours.cell_bytes()), depth)?;
        let bytes = size_of::<MicroCm>() + theirs.rows() * theirs.cols() * depth + self.code_bytes;
        same("bytes in memory", called(ours.memory_bytes()), bytes)?;
        same("n", called(ours.sub_window()), theirs.sub_window())?;
        let fraction = called(ours.residual_fraction()).to_bits();
        same("fraction", fraction, theirs.residual_fraction().to_bits())?;
        same("highest zoom", called(ours.max_zoom()), Ok(theirs.max_zoom()))?;
        same("audit", called(ours.audit()), Ok(None))?;
        let cell = called(ours.bucket_slice(row, col));
        if row >= ours.rows() || col >= ours.cols() {
            return same_number("the cell's number", number(&cell), 7);
        }
        let cell = cell.map_err(|why| why.to_string())?;
        let start = (row * ours.cols() + col) * depth;
        same_bytes("the cell in the grid", cell, &ours.grid()[start..][..depth])?;
        layout::same_cells(
            "the cell",
            params.t as u64,
            cell,
            theirs.as_storage().bucket_slice(row, col),
        )
    }

    /// What the clock, the state and (of small ones) the grid are after a call.
    fn agree(&mut self) -> Outcome {
        let clock = judge::clock(&self.theirs);
        let sketch = held::sketch_of(&self.settings, clock.reading, judge::state(&self.theirs));
        same("the sketch's words", self.ours.plain(), sketch)?;
        same("state", self.ours.state(), judge::state(&self.theirs))?;
        same("clock", self.ours.clock(), our_clock(clock))?;
        same("n", self.ours.sub_window(), clock.n())?;
        self.looked += 1;
        if self.ours.grid().len() <= SMALL || self.looked % 64 == 0 {
            self.equal_grids()?;
        }
        Ok(())
    }

    /// Pixels, zooms and shutters are the Rust's, and the pads are as they were.
    pub fn equal_grids(&self) -> Outcome {
        let (t, grid) = (self.settings.t as u64, self.ours.grid());
        layout::same_cells("the grid", t, grid, judge::grid(&self.theirs))?;
        layout::same_pads(t, grid, &self.begun)
    }

    pub fn agree_wholly(&mut self) -> Outcome {
        self.agree()?;
        self.equal_grids()
    }
}

fn our_clock(clock: judge::Clock) -> SubWindowClock {
    if clock.timed {
        return SubWindowClock::TimeBased {
            sub_window_len: clock.length,
            epoch: clock.epoch,
            now: clock.reading,
        };
    }
    SubWindowClock::CountBased {
        items_per_sub_window: clock.length,
        seen: clock.reading,
    }
}
